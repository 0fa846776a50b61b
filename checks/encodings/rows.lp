% The family `rows` of checks/families.py: twenty free fluents. n answers are asked for.
number(1..20).
{ p(X) : number(X) }.
#show p/1.
