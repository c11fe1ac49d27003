# conv.sh CRATE_DIR [FUNC..]: names, conversion in two passes (the second knows which places Goals exports), layout
H=$(cd "$(dirname "$0")" && pwd); cd $1 && C=$(basename $1) && N=/tmp/names-$C-$$ && G=/tmp/gen-$C-$$ && rm -rf $N $G && rt check --generated $N --old-names >/dev/null 2>&1; shift
cp -r proofs /tmp/proofs-$C-$$
python3 "$H/conv.py" . $N/names.json /nonexistent "$@" >/dev/null
rt check --generated $G >/dev/null 2>&1
rm -rf proofs; mv /tmp/proofs-$C-$$ proofs
python3 "$H/conv.py" . $N/names.json $G "$@"; rm -rf $G; rt fmt >/dev/null 2>&1
