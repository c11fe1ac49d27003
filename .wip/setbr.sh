# setbr.sh FILE: sets the branches chain r8 .. i27 from the last eight of a file with the chain's commits, in order
cd /tmp/w/chain; set -- $(tail -8 $1)
git branch -f chain $1; git branch -f r8 $2; git branch -f r9 $3; git branch -f r10 $4; git branch -f r11 $5; git branch -f r12 $6; git branch -f r13 $7; git branch -f i27 $8
