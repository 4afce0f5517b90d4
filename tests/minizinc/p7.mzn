% examples/p7.table as it stands.
constraint ((-7 div 2) = -3);
solve satisfy;
