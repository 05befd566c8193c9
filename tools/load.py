#!/usr/bin/env python3
"""Writes the scripts by which the desk's speed is measured. usage: tools/load.py alloc N | groups N VOLUMES GROUPS LISTED | mixed N VOLUMES | manage N VOLUMES"""
import sys, random
def deck(volumes, tracks, groups=1, listed=1):
    """A deck whose volumes are dealt out to so many groups, the last of which the routine lists."""
    v=''.join(f'[storgroup.SG{i%groups+1}.volume.V{i:05d}]\ntracks = {tracks}\n' for i in range(volumes))
    names=', '.join(f"'SG{groups-k}'" for k in range(listed))
    return f"SMSADMIN 1 ACTIVATE\nversion = 1\n[storclass.SC1]\n{v}[routine]\nstorclass = \"PROC STORCLAS SET &STORCLAS = 'SC1' END\"\nstorgroup = \"PROC STORGRP SET &STORGRP = {names} END\"\n./END\n"
what,n=sys.argv[1],int(sys.argv[2])
if what in ('alloc','groups'):
    out=[deck(1,982800) if what=='alloc' else deck(int(sys.argv[3]),982800,int(sys.argv[4]),int(sys.argv[5]))]
    out+= [f'JOB{i%10} {i+1} ALLOC A.D{i} SPACE=(TRK,(1,1))\n' for i in range(n)]
elif what=='manage':
    # every second data set expires on the day on which it is made
    vols=int(sys.argv[3]); out=[deck(vols,n//vols*2+2)]; names=[f'H{i//100:04d}.D{i%100:02d}' for i in range(n)]
    random.Random(1).shuffle(names)
    out+= [f'JOB{i%10} {i+1} ALLOC {name} SPACE=(TRK,1){" RETPD=0" if i%2 else ""}\n' for i,name in enumerate(names)]
else:
    r=random.Random(1); vols=int(sys.argv[3]); out=[deck(vols,50085)]; live=[]; k=0
    for i in range(n):
        if live and r.random()<0.4:
            j=r.randrange(len(live)); live[j],live[-1]=live[-1],live[j]
            out.append(f'JOB{i%10} {i+1} DELETE A.D{live.pop()}\n')
        else:
            out.append(f'JOB{i%10} {i+1} ALLOC A.D{i} SPACE=(TRK,({r.randrange(1,400)},5))\n'); live.append(i)
sys.stdout.write(''.join(out))
