% offset.txt, translated under relational.
var -5..5: v0;
array[int] of int: a0 = array1d(0..3, [5, 6, 7, 8]);
constraint (not ((((((true /\ true) /\ (4 != 0)) /\ (0 <= (v0 mod (4 + bool2int((4 = 0)))))) /\ ((v0 mod (4 + bool2int((4 = 0)))) <= 3)) /\ true) /\ (a0[max(0, min(3, (v0 mod (4 + bool2int((4 = 0))))))] = 5)));
solve satisfy;
