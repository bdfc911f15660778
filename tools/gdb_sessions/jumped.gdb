continue
jump *0x8008
