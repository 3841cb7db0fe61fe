"""Carries out a plan over services: web services, tables of databases and CSV files.

`command` has the words and the statuses, `reading` reads the services file into `settings`, `rounds` carries out the plan, `asking` makes
the requests of a step, `web` with `calls`, `databases` and `files` are the kinds of services, and `journal` keeps answers. docs/GUIDE.md has
the keys and the statuses.
"""
