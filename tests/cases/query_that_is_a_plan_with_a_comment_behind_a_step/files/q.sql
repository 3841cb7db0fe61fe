plan 1
branch
access all_r(new, new) # all
output $0
end
