%
(Two slots in the plate, as a CAM program writes them for Mach3)
G90 G94 G91.1 G40 G49 G17
G21
(End mill, 8 mm)
G28 G91 Z0.
G90
T2 M6
S2000 M3
G54
M8
G0 X20. Y30.
G43 Z20. H2
G0 Z2.
G1 Z-3. F100.
G1 X80. F300.
G0 Z20.
X20. Y12.
G0 Z2.
G1 Z-3. F100.
G1 X80. F300.
G0 Z20.
M9
G28 G91 Z0.
G90
M30
%
