What is said of the examples, beside their reports; and a warning that comes before a run without an end.

The status, nothing on standard error, and something of each instance that hasn't ended; the last line is that of the report.
  $ for report in examples/*.report; do
  >   name=${report%.report} words=() wanted=0
  >   [ ! -e $name.input ] || words=(--input $name.input)
  >   ! grep -q ': fault ' $report || wanted=8
  >   ! grep -q '^stopped by bound' $report || wanted=3
  >   [ $name != examples/control ] || wanted=7
  >   status=0; kahn_explain $name.kahn "${words[@]}" --all > said 2> error || status=$?
  >   told=$(grep -cE '^([^ ].*: error: )?[0-9]+ [a-z_0-9A-Z]+ (waits on|has a fault|wants more)' said)
  >   first=$(grep -cE '^[0-9]+ process(es)? ' said)
  >   [ $status = $wanted ] && [ ! -s error ] && [ $((told - first)) = $(grep -cE ': (waits on|fault|wants more) ' $report) ] || echo "$name: status $status, $told of $(cat error)"
  >   cmp <(tail -n 1 said) <(tail -n 1 $report)
  > done

A warning before a run without an end, which goes on: the warning alone.
  $ cat > endless << END
  > begin integer output channel A;
  >   process p(integer out W); begin integer I; repeat begin I := I + 1 end; send I on W end; p(A) end
  > END
  > kahn_explain endless --bound 281474976710655 > output & until grep -q ': warning: .* never ' output 2> /dev/null; do sleep 0.05; done
  > kill -0 $! && kill $!; wait $! 2> /dev/null; kahn_explain endless --strict | diff - output
