(Exported by FreeCAD)
(Post Processor: PathScripts.post.grbl_post)
(Output Time:2026-11-30 10:59:34.302849)
(Begin preamble)
G17 G21 G90 G94 G40 G49 G54 G61 G80(Begin operation: 3.5mm drill)
(Path: 3.5mm drill)
(3.5mm drill)
(Begin toolchange)
( M6 T4 )
M3 S3000
(Finish operation: 3.5mm drill)
(Begin operation: Drill4)
(Path: Drill4)
(Drill4)
(Begin Drilling)
G0 Z18.000
G90
( G98 )
G0 X56.000 Y20.000
G0 Z16.000
(G83 X56.000 Y20.000 Z-2.000 F150.000 Q2.625 R16.000)
G0 X56.000 Y20.000
G1 Z13.375 F150.00
G0 Z16.000
G0 Z13.506
G1 Z10.750 F150.00
G0 Z16.000
G0 Z10.881
G1 Z8.125 F150.00
G0 Z16.000
G0 Z8.256
G1 Z5.500 F150.00
G0 Z16.000
G0 Z5.631
G1 Z2.875 F150.00
G0 Z16.000
G0 Z3.006
G1 Z0.250 F150.00
G0 Z16.000
G0 Z0.381
G1 Z-2.000 F150.00
G0 Z16.000
( G80 )
G0 Z16.000
G0 Z18.000
(Finish operation: Drill4)
(Begin postamble)
M5
G17 G90
M2
