# crate, answer files, answers, invariant files, lemmas (with those of modules); the last line is the sum. At the top of a clone.
for c in crates/*; do
  a=$(find $c/proofs -name Answers.antt); i=$(find $c/proofs -name Invariants.antt | wc -l)
  n=$(cat /dev/null $a | grep -cE '^pub (abbrev )?[^ ]+ :'); l=$(ls $c/proofs/*.antt | grep -v '/Lib' | xargs -r cat | grep -cE '^(  )?(pub )?[a-z][^ ]* : ')
  echo ${c#crates/} $(echo $a | wc -w) $n $i $l
done 2>/dev/null | awk '{a+=$2; n+=$3; i+=$4; l+=$5; print} END {print "all", a, n, i, l}' | column -t
