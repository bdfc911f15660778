info threads
maintenance packet Hg1
maintenance packet Hg2
maintenance packet T2
maintenance packet vCont;s:2
print/x $pc
stepi
continue
