% examples/p8.table, translated: the same under each reading.
constraint ((((true /\ true) /\ (2 != 0)) /\ true) /\ ((-7 mod (2 + bool2int((2 = 0)))) = -1));
solve satisfy;
