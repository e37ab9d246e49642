// A quarter of a ring, as of a casing's flange: radii 100 and 140 mm, 50 mm high. Made with Gmsh 4.8.4 (Debian 12):
//   gmsh -3 -format msh41 casing.geo -o casing.msh
//   gmsh -3 -format msh22 casing.geo -o casing-2.2.msh
//   gmsh -3 -format vtk   casing.geo -o casing.vtk
size = 38;
Point(1) = {0, 0, 0, size};
Point(2) = {100, 0, 0, size};
Point(3) = {140, 0, 0, size};
Point(4) = {0, 140, 0, size};
Point(5) = {0, 100, 0, size};
Line(1) = {2, 3};
Circle(2) = {3, 1, 4};
Line(3) = {4, 5};
Circle(4) = {5, 1, 2};
Curve Loop(1) = {1, 2, 3, 4};
Plane Surface(1) = {1};
Extrude {0, 0, 50} { Surface{1}; }
