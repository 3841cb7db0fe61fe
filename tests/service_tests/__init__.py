"""The tests that tests/services runs, by what they look at; `room` has the server and the runs."""
