% offset.txt as it stands, which MiniZinc reads as relational does.
var -5..5: v0;
array[int] of int: a0 = array1d(0..3, [5, 6, 7, 8]);
constraint (not (a0[(v0 mod 4)] = 5));
solve satisfy;
