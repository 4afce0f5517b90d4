% signs.txt as it stands.
var -7..7: v0;
var -3..3: v1;
var -7..7: v2;
var -2..2: v3;
constraint ((v0 div v1) = v2);
constraint ((v0 mod v1) = v3);
constraint (v0 = ((v1 * v2) + v3));
solve satisfy;
