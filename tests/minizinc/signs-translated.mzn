% signs.txt, translated: the same under each reading.
var -7..7: v0;
var -3..3: v1;
var -7..7: v2;
var -2..2: v3;
constraint ((((true /\ true) /\ (v1 != 0)) /\ true) /\ ((v0 div (v1 + bool2int((v1 = 0)))) = v2));
constraint ((((true /\ true) /\ (v1 != 0)) /\ true) /\ ((v0 mod (v1 + bool2int((v1 = 0)))) = v3));
constraint ((true /\ ((true /\ true) /\ true)) /\ (v0 = ((v1 * v2) + v3)));
solve satisfy;
