begin_version
3
end_version
begin_metric
1
end_metric
1
begin_variable
var0
-1
4
Atom at(a)
Atom at(b)
Atom at(c)
Atom at(d)
end_variable
0
begin_state
0
end_state
begin_goal
1
0 3
end_goal
5
begin_operator
go a b
0
1
0 0 0 1
1
end_operator
begin_operator
go a c
0
1
0 0 0 2
5
end_operator
begin_operator
go b a
0
1
0 0 1 0
1
end_operator
begin_operator
go b c
0
1
0 0 1 2
1
end_operator
begin_operator
go c d
0
1
0 0 2 3
4
end_operator
0
