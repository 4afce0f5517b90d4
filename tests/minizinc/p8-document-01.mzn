% P8 with document 01's remainder in place of request L3's: MiniZinc finds it false.
constraint ((-7 mod 2) = 1);
solve satisfy;
