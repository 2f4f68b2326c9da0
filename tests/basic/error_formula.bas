10 OPEN 4,4:D$="D"
20 PRINT#4,"A"+("B"+("C"+D$))
30 PRINT#4,"A"+("B"+("C"+"D"))
