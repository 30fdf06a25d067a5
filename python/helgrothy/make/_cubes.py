"""Sets of pieces of cubes that have a name, each piece drawn in layers side by side.

Those of the flat pieces are sets of `polyominoes`.
"""


from . import polyominoes

_V = "VV\nV.\n"
_L = "LLL\nL..\n"
_T = "TTT\n.T.\n"
_Z = "ZZ.\n.ZZ\n"
_I = "IIII\n"
_O = "OO\nOO\n"
# The three tetracubes that aren't flat: two screws, mirror images of each other, and a corner.
_SOLID = "AA .A\nA. ..\n\nBB B.\n.B ..\n\nPP P.\nP. ..\n"
# The pentacubes that aren't flat: five that are their own mirror images, and six pairs.
_SOLID_5 = """\
aaa a..
a.. ...

bbb .b.
.b. ...

ccc ...
.c. .c.

dd d.
dd ..

ee e.
.e e.

fff .f.
f.. ...

ggg g..
.g. ...

hhh ..h
h.. ...

iii i..
..i ...

jjj ...
j.. j..

kkk ...
..k ..k

.ll ..l
ll. ...

mm. m..
.mm ...

nn. .n.
.nn ...

.oo .o.
oo. ...

pp. ...
.p. .pp

.qq ...
.q. qq.
"""

SETS: dict[str, str] = {
    **polyominoes.SETS,
    "soma": "\n".join([_V, _L, _T, _Z, _SOLID]),
    "tetracubes": "\n".join([_I, _L, _O, _T, _Z, _SOLID]),
    "pentacubes": "\n".join([polyominoes.SETS["pentominoes"], _SOLID_5]),
}
