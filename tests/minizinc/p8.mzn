% examples/p8.table as it stands.
constraint ((-7 mod 2) = -1);
solve satisfy;
