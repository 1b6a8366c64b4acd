Pictures of the examples, most as they ran, and of waits in rings.

alarm, as it ran.
  $ kahn_draw examples/alarm.kahn --input examples/alarm.input
  digraph network {
    rankdir=LR;
    node [shape=box];
    edge [labelfontsize=9, labeldistance=1.5, labelangle=45];
    p0 [label="1 average\nN=3\nwaits on HEAT after 43", tooltip="average at 23:3"];
    p1 [label="2 watch\nLOW=250, HIGH=300\nwaits on MEANS after 30", tooltip="watch at 23:43"];
    c0 [label="input", shape=plaintext];
    c0 -> p1 [label="TIME", style=solid, headlabel="AT"];
    c1 [label="input", shape=plaintext];
    c1 -> p0 [label="HEAT", style=solid, headlabel="U"];
    p0 -> p0 [label="PAST", style=solid, taillabel="KEPT", headlabel="OLD"];
    p0 -> p1 [label="MEANS", style=solid, taillabel="W", headlabel="U"];
    c4 [label="output", shape=plaintext];
    p1 -> c4 [label="HOT\n1", style=solid, taillabel="ABOVE"];
    c5 [label="output", shape=plaintext];
    p1 -> c5 [label="COOL\n1", style=solid, taillabel="BELOW"];
  }
alarm.
  $ kahn_draw examples/alarm.kahn
  digraph network {
    rankdir=LR;
    node [shape=box];
    edge [labelfontsize=9, labeldistance=1.5, labelangle=45];
    p0 [label="1 average\nN=3", tooltip="average at 23:3"];
    p1 [label="2 watch\nLOW=250, HIGH=300", tooltip="watch at 23:43"];
    c0 [label="input", shape=plaintext];
    c0 -> p1 [label="TIME", style=solid, headlabel="AT"];
    c1 [label="input", shape=plaintext];
    c1 -> p0 [label="HEAT", style=solid, headlabel="U"];
    p0 -> p0 [label="PAST", style=solid, taillabel="KEPT", headlabel="OLD"];
    p0 -> p1 [label="MEANS", style=solid, taillabel="W", headlabel="U"];
    c4 [label="output", shape=plaintext];
    p1 -> c4 [label="HOT", style=solid, taillabel="ABOVE"];
    c5 [label="output", shape=plaintext];
    p1 -> c5 [label="COOL", style=solid, taillabel="BELOW"];
  }
alternating-bit, as it ran.
  $ kahn_draw examples/alternating-bit.kahn --input examples/alternating-bit.input
  digraph network {
    rankdir=LR;
    node [shape=box];
    edge [labelfontsize=9, labeldistance=1.5, labelangle=45];
    p0 [label="1 send_all\nwaits on VALUES after 59", tooltip="send_all at 40:3"];
    p1 [label="2 lose\nSIZE=2, EACH=3\nwaits on FRAMES after 82", tooltip="lose at 40:43"];
    p2 [label="3 receive\nwaits on FRAMES_LEFT after 47", tooltip="receive at 41:7"];
    p3 [label="4 lose\nSIZE=1, EACH=4\nwaits on BITS after 52", tooltip="lose at 41:48"];
    c0 [label="input", shape=plaintext];
    c0 -> p0 [label="VALUES", style=solid, headlabel="U"];
    p0 -> p1 [label="FRAMES", style=solid, taillabel="FRAME", headlabel="U"];
    p1 -> p2 [label="FRAMES_LEFT", style=solid, taillabel="W", headlabel="FRAME"];
    p2 -> p3 [label="BITS", style=solid, taillabel="ACKNOWLEDGE", headlabel="U"];
    p3 -> p0 [label="BITS_LEFT", style=solid, taillabel="W", headlabel="ACKNOWLEDGED"];
    c5 [label="output", shape=plaintext];
    p2 -> c5 [label="RECEIVED\n6", style=solid, taillabel="W"];
  }
bits, as it ran.
  $ kahn_draw examples/bits.kahn --input examples/bits.input
  digraph network {
    rankdir=LR;
    node [shape=box];
    edge [labelfontsize=9, labeldistance=1.5, labelangle=45];
    p0 [label="1 exclusive\nwaits on A after 23", tooltip="exclusive at 18:3"];
    c0 [label="input", shape=plaintext];
    c0 -> p0 [label="A", style=solid, headlabel="U"];
    c1 [label="input", shape=plaintext];
    c1 -> p0 [label="B", style=solid, headlabel="V"];
    c2 [label="output", shape=plaintext];
    p0 -> c2 [label="XOR\n2", style=solid, taillabel="W"];
  }
buffer, as it ran.
  $ kahn_draw examples/buffer.kahn --input /dev/null
  digraph network {
    rankdir=LR;
    node [shape=box];
    edge [labelfontsize=9, labeldistance=1.5, labelangle=45];
    p0 [label="1 produce\nCOUNT=10\nended after 31", style=filled, fillcolor=lightgrey, tooltip="produce at 15:3"];
    p1 [label="2 consume\nSIZE=3\nwaits on VALUES after 48", tooltip="consume at 15:36"];
    p0 -> p1 [label="VALUES", style=solid, taillabel="W", headlabel="U"];
    p1 -> p0 [label="CREDITS", style=solid, taillabel="CREDIT", headlabel="CREDIT"];
    c2 [label="output", shape=plaintext];
    p1 -> c2 [label="CONSUMED\n10", style=solid, taillabel="W"];
  }
control, as it ran.
  $ kahn_draw examples/control.kahn --input examples/control.input
  digraph network {
    rankdir=LR;
    node [shape=box];
    edge [labelfontsize=9, labeldistance=1.5, labelangle=45];
    p0 [label="1 err\nwaits on Y after 2", color=red, tooltip="err at 10:3"];
    p1 [label="2 ctl\nwaits on E after 1", color=red, tooltip="ctl at 10:22"];
    p2 [label="3 plant\nwaits on U after 1", color=red, tooltip="plant at 10:36"];
    c0 [label="input", shape=plaintext];
    c0 -> p0 [label="SET", style=solid, headlabel="R"];
    p2 -> p0 [label="Y", style=solid, taillabel="Y", headlabel="Y", color=red, penwidth=2];
    p0 -> p1 [label="E", style=solid, taillabel="E", headlabel="E", color=red, penwidth=2];
    p1 -> p2 [label="U", style=solid, taillabel="U", headlabel="U", color=red, penwidth=2];
    c4 [label="output", shape=plaintext];
    p2 -> c4 [label="HEAT\n0", style=solid, taillabel="O"];
  }
count, as it ran.
  $ kahn_draw examples/count.kahn --input /dev/null
  digraph network {
    rankdir=LR;
    node [shape=box];
    edge [labelfontsize=9, labeldistance=1.5, labelangle=45];
    p0 [label="1 count\nN=3\nended after 7", style=filled, fillcolor=lightgrey, tooltip="count at 6:3"];
    c0 [label="output", shape=plaintext];
    p0 -> c0 [label="W\n3", style=solid, taillabel="W"];
  }
double, as it ran.
  $ kahn_draw examples/double.kahn --input examples/double.input
  digraph network {
    rankdir=LR;
    node [shape=box];
    edge [labelfontsize=9, labeldistance=1.5, labelangle=45];
    p0 [label="1 double\nwaits on A after 10", tooltip="double at 4:3"];
    c0 [label="input", shape=plaintext];
    c0 -> p0 [label="A", style=solid, headlabel="U"];
    c1 [label="output", shape=plaintext];
    p0 -> c1 [label="B\n3", style=solid, taillabel="W"];
  }
fahrenheit, as it ran.
  $ kahn_draw examples/fahrenheit.kahn --input examples/fahrenheit.input
  digraph network {
    rankdir=LR;
    node [shape=box];
    edge [labelfontsize=9, labeldistance=1.5, labelangle=45];
    p0 [label="1 convert\nwaits on C after 10", tooltip="convert at 10:3"];
    c0 [label="input", shape=plaintext];
    c0 -> p0 [label="C", style=solid, headlabel="U"];
    c1 [label="output", shape=plaintext];
    p0 -> c1 [label="F\n3", style=solid, taillabel="W"];
  }
farm, as it ran.
  $ kahn_draw examples/farm.kahn --input /dev/null
  digraph network {
    rankdir=LR;
    node [shape=box];
    edge [labelfontsize=9, labeldistance=1.5, labelangle=45];
    p0 [label="1 count\nN=12\nended after 25", style=filled, fillcolor=lightgrey, tooltip="count at 21:3"];
    p1 [label="2 deal\nwaits on NUMBERS after 29", tooltip="deal at 21:26"];
    p2 [label="3 measure\nwaits on FIRST after 41", tooltip="measure at 22:7"];
    p3 [label="4 measure\nwaits on SECOND after 40", tooltip="measure at 22:39"];
    p4 [label="5 measure\nwaits on THIRD after 60", tooltip="measure at 22:73"];
    p5 [label="6 collect\nwaits on FIRST_STEPS after 29", tooltip="collect at 23:7"];
    p0 -> p1 [label="NUMBERS", style=solid, taillabel="W", headlabel="U"];
    p1 -> p2 [label="FIRST", style=solid, taillabel="V", headlabel="U"];
    p1 -> p3 [label="SECOND", style=solid, taillabel="W", headlabel="U"];
    p1 -> p4 [label="THIRD", style=solid, taillabel="X", headlabel="U"];
    p2 -> p5 [label="FIRST_STEPS", style=solid, taillabel="W", headlabel="U"];
    p3 -> p5 [label="SECOND_STEPS", style=solid, taillabel="W", headlabel="V"];
    p4 -> p5 [label="THIRD_STEPS", style=solid, taillabel="W", headlabel="W"];
    c7 [label="output", shape=plaintext];
    p5 -> c7 [label="STEPS\n12", style=solid, taillabel="X"];
  }
fibonacci, as it ran.
  $ kahn_draw examples/fibonacci.kahn --input /dev/null
  digraph network {
    rankdir=LR;
    node [shape=box];
    edge [labelfontsize=9, labeldistance=1.5, labelangle=45];
    p0 [label="1 put_before\nHEAD=1\nwaits on SUMS after 275", tooltip="put_before at 19:3"];
    p1 [label="2 put_before\nHEAD=0\nwaits on FROM_ONE after 278", tooltip="put_before at 19:37"];
    p2 [label="3 share\nwaits on ALL after 466", tooltip="share at 19:70"];
    p3 [label="4 drop_first\nwaits on SECOND after 278", tooltip="drop_first at 20:7"];
    p4 [label="5 add\nfault overflow after 367", style=filled, fillcolor=salmon, tooltip="add at 20:36"];
    p4 -> p0 [label="SUMS", style=solid, taillabel="W", headlabel="U"];
    p0 -> p1 [label="FROM_ONE", style=solid, taillabel="W", headlabel="U"];
    p1 -> p2 [label="ALL", style=solid, taillabel="W", headlabel="U"];
    p2 -> p4 [label="FIRST", style=solid, taillabel="W", headlabel="U"];
    p2 -> p3 [label="SECOND", style=solid, taillabel="X", headlabel="U"];
    p3 -> p4 [label="TAIL", style=solid, taillabel="W", headlabel="V"];
    c6 [label="output", shape=plaintext];
    p2 -> c6 [label="FIBONACCI\n93", style=solid, taillabel="V"];
  }
fibonacci.
  $ kahn_draw examples/fibonacci.kahn
  digraph network {
    rankdir=LR;
    node [shape=box];
    edge [labelfontsize=9, labeldistance=1.5, labelangle=45];
    p0 [label="1 put_before\nHEAD=1", tooltip="put_before at 19:3"];
    p1 [label="2 put_before\nHEAD=0", tooltip="put_before at 19:37"];
    p2 [label="3 share", tooltip="share at 19:70"];
    p3 [label="4 drop_first", tooltip="drop_first at 20:7"];
    p4 [label="5 add", tooltip="add at 20:36"];
    p4 -> p0 [label="SUMS", style=solid, taillabel="W", headlabel="U"];
    p0 -> p1 [label="FROM_ONE", style=solid, taillabel="W", headlabel="U"];
    p1 -> p2 [label="ALL", style=solid, taillabel="W", headlabel="U"];
    p2 -> p4 [label="FIRST", style=solid, taillabel="W", headlabel="U"];
    p2 -> p3 [label="SECOND", style=solid, taillabel="X", headlabel="U"];
    p3 -> p4 [label="TAIL", style=solid, taillabel="W", headlabel="V"];
    c6 [label="output", shape=plaintext];
    p2 -> c6 [label="FIBONACCI", style=solid, taillabel="V"];
  }
filter, as it ran.
  $ kahn_draw examples/filter.kahn --input examples/filter.input
  digraph network {
    rankdir=LR;
    node [shape=box];
    edge [labelfontsize=9, labeldistance=1.5, labelangle=45];
    p0 [label="1 filter\nDIVISOR=3\nwaits on ALL after 25", tooltip="filter at 15:3"];
    c0 [label="input", shape=plaintext];
    c0 -> p0 [label="ALL", style=solid, headlabel="U"];
    c1 [label="output", shape=plaintext];
    p0 -> c1 [label="KEPT\n3", style=solid, taillabel="W"];
    c2 [label="output", shape=plaintext];
    p0 -> c2 [label="TESTED\n7", style=dashed, taillabel="T"];
  }
go-back-n, as it ran.
  $ kahn_draw examples/go-back-n.kahn --input examples/go-back-n.input
  digraph network {
    rankdir=LR;
    node [shape=box];
    edge [labelfontsize=9, labeldistance=1.5, labelangle=45];
    p0 [label="1 sender\nWINDOW=4\nended after 723", style=filled, fillcolor=lightgrey, tooltip="sender at 50:3"];
    p1 [label="2 line\nSIZE=2, EACH=3\nwaits on FRAMES after 562", tooltip="line at 50:66"];
    p2 [label="3 receiver\nwaits on FRAMES_LEFT after 301", tooltip="receiver at 51:7"];
    p3 [label="4 line\nSIZE=1, EACH=4\nwaits on ACKS after 352", tooltip="line at 51:50"];
    c0 [label="input", shape=plaintext];
    c0 -> p0 [label="DATA", style=solid, headlabel="U"];
    p0 -> p1 [label="FRAMES", style=solid, taillabel="FRAME", headlabel="U"];
    p1 -> p2 [label="FRAMES_LEFT", style=solid, taillabel="W", headlabel="FRAME"];
    p2 -> p3 [label="ACKS", style=solid, taillabel="ACK", headlabel="U"];
    p3 -> p0 [label="ACKS_LEFT", style=solid, taillabel="W", headlabel="ACK"];
    p0 -> p0 [label="PENDING", style=solid, taillabel="KEPT", headlabel="OLD"];
    c6 [label="output", shape=plaintext];
    p2 -> c6 [label="DELIVERED\n20", style=solid, taillabel="W"];
    c7 [label="output", shape=plaintext];
    p0 -> c7 [label="SENT\n1", style=solid, taillabel="COUNT"];
  }
hamming, as it ran.
  $ kahn_draw examples/hamming.kahn --input /dev/null
  digraph network {
    rankdir=LR;
    node [shape=box];
    edge [labelfontsize=9, labeldistance=1.5, labelangle=45];
    p0 [label="1 put_before\nHEAD=1\nwaits on LATER after 125", tooltip="put_before at 24:3"];
    p1 [label="2 share\nCOUNT=30\nended after 181", style=filled, fillcolor=lightgrey, tooltip="share at 24:33"];
    p2 [label="3 multiply\nFACTOR=2\nwaits on FOR_2 after 91", tooltip="multiply at 25:7"];
    p3 [label="4 multiply\nFACTOR=3\nwaits on FOR_3 after 91", tooltip="multiply at 25:37"];
    p4 [label="5 multiply\nFACTOR=5\nwaits on FOR_5 after 91", tooltip="multiply at 25:68"];
    p5 [label="6 merge\nwaits on TWICE after 131", tooltip="merge at 26:7"];
    p6 [label="7 merge\nwaits on BY_2_OR_3 after 139", tooltip="merge at 26:43"];
    p0 -> p1 [label="ALL", style=solid, taillabel="W", headlabel="U"];
    p1 -> p2 [label="FOR_2", style=solid, taillabel="X", headlabel="U"];
    p1 -> p3 [label="FOR_3", style=solid, taillabel="Y", headlabel="U"];
    p1 -> p4 [label="FOR_5", style=solid, taillabel="Z", headlabel="U"];
    p2 -> p5 [label="TWICE", style=solid, taillabel="W", headlabel="U"];
    p3 -> p5 [label="THRICE", style=solid, taillabel="W", headlabel="V"];
    p4 -> p6 [label="FIVE_TIMES", style=solid, taillabel="W", headlabel="V"];
    p5 -> p6 [label="BY_2_OR_3", style=solid, taillabel="W", headlabel="U"];
    p6 -> p0 [label="LATER", style=solid, taillabel="W", headlabel="U"];
    c9 [label="output", shape=plaintext];
    p1 -> c9 [label="HAMMING\n30", style=solid, taillabel="V"];
  }
histogram, as it ran.
  $ kahn_draw examples/histogram.kahn --input examples/histogram.input
  digraph network {
    rankdir=LR;
    node [shape=box];
    edge [labelfontsize=9, labeldistance=1.5, labelangle=45];
    p0 [label="1 bin\nLIMIT=10, MARK=-1\nended after 28", peripheries=2, style=filled, fillcolor=lightgrey, tooltip="bin at 16:3"];
    p1 [label="2 bin\nLIMIT=20, MARK=-1\nended after 19", peripheries=2, style=filled, fillcolor=lightgrey, tooltip="bin at 16:36"];
    p2 [label="3 bin\nLIMIT=30, MARK=-1\nended after 12", peripheries=2, style=filled, fillcolor=lightgrey, tooltip="bin at 16:70"];
    p3 [label="4 bin\nLIMIT=40, MARK=-1\nended after 9", peripheries=2, style=filled, fillcolor=lightgrey, tooltip="bin at 16:104"];
    c0 [label="input", shape=plaintext];
    c0 -> p0 [label="VALUES", style=solid, headlabel="U"];
    p0 -> p1 [label="FROM_10", style=solid, taillabel="W", headlabel="U"];
    p1 -> p2 [label="FROM_20", style=solid, taillabel="W", headlabel="U"];
    p2 -> p3 [label="FROM_30", style=solid, taillabel="W", headlabel="U"];
    c4 [label="output", shape=plaintext];
    p3 -> c4 [label="FROM_40\n2", style=solid, taillabel="W"];
  }
impulse-response, as it ran.
  $ kahn_draw examples/impulse-response.kahn --input examples/impulse-response.input
  digraph network {
    rankdir=LR;
    node [shape=box];
    edge [labelfontsize=9, labeldistance=1.5, labelangle=45];
    p0 [label="1 first_tap\nC=1\nwaits on SIGNAL after 46", tooltip="first_tap at 17:3"];
    p1 [label="2 tap\nC=3\nwaits on SUM_1 after 58", tooltip="tap at 17:41"];
    p2 [label="3 tap\nC=3\nwaits on SUM_2 after 58", tooltip="tap at 18:7"];
    p3 [label="4 last_tap\nC=1\nwaits on SUM_3 after 45", tooltip="last_tap at 18:44"];
    c0 [label="input", shape=plaintext];
    c0 -> p0 [label="SIGNAL", style=solid, headlabel="U"];
    p0 -> p1 [label="BY_1", style=solid, taillabel="LATER", headlabel="U"];
    p1 -> p2 [label="BY_2", style=solid, taillabel="LATER", headlabel="U"];
    p2 -> p3 [label="BY_3", style=solid, taillabel="LATER", headlabel="U"];
    p0 -> p1 [label="SUM_1", style=solid, taillabel="SUM", headlabel="S"];
    p1 -> p2 [label="SUM_2", style=solid, taillabel="SUM", headlabel="S"];
    p2 -> p3 [label="SUM_3", style=solid, taillabel="SUM", headlabel="S"];
    c7 [label="output", shape=plaintext];
    p3 -> c7 [label="FILTERED\n11", style=solid, taillabel="SUM"];
  }
join, as it ran.
  $ kahn_draw examples/join.kahn --input examples/join.input
  digraph network {
    rankdir=LR;
    node [shape=box];
    edge [labelfontsize=9, labeldistance=1.5, labelangle=45];
    p0 [label="1 join\nFIRST=-1, MARK=1000000\nended after 36", style=filled, fillcolor=lightgrey, tooltip="join at 20:3"];
    c0 [label="input", shape=plaintext];
    c0 -> p0 [label="ITEM", style=solid, headlabel="A"];
    c1 [label="input", shape=plaintext];
    c1 -> p0 [label="COUNT", style=solid, headlabel="X"];
    c2 [label="input", shape=plaintext];
    c2 -> p0 [label="LISTED", style=solid, headlabel="B"];
    c3 [label="input", shape=plaintext];
    c3 -> p0 [label="PRICE", style=solid, headlabel="Y"];
    c4 [label="output", shape=plaintext];
    p0 -> c4 [label="KEY\n3", style=solid, taillabel="K"];
    c5 [label="output", shape=plaintext];
    p0 -> c5 [label="COST\n3", style=solid, taillabel="W"];
  }
join.
  $ kahn_draw examples/join.kahn
  digraph network {
    rankdir=LR;
    node [shape=box];
    edge [labelfontsize=9, labeldistance=1.5, labelangle=45];
    p0 [label="1 join\nFIRST=-1, MARK=1000000", tooltip="join at 20:3"];
    c0 [label="input", shape=plaintext];
    c0 -> p0 [label="ITEM", style=solid, headlabel="A"];
    c1 [label="input", shape=plaintext];
    c1 -> p0 [label="COUNT", style=solid, headlabel="X"];
    c2 [label="input", shape=plaintext];
    c2 -> p0 [label="LISTED", style=solid, headlabel="B"];
    c3 [label="input", shape=plaintext];
    c3 -> p0 [label="PRICE", style=solid, headlabel="Y"];
    c4 [label="output", shape=plaintext];
    p0 -> c4 [label="KEY", style=solid, taillabel="K"];
    c5 [label="output", shape=plaintext];
    p0 -> c5 [label="COST", style=solid, taillabel="W"];
  }
matrix-product, as it ran.
  $ kahn_draw examples/matrix-product.kahn --input examples/matrix-product.input
  digraph network {
    rankdir=LR;
    node [shape=box];
    edge [labelfontsize=9, labeldistance=1.5, labelangle=45];
    p0 [label="1 cell\nwaits on ROW_1 after 21", tooltip="cell at 19:3"];
    p1 [label="2 cell\nwaits on ROW_1_ON after 21", tooltip="cell at 19:57"];
    p2 [label="3 cell\nwaits on ROW_2 after 21", tooltip="cell at 20:7"];
    p3 [label="4 cell\nwaits on ROW_2_ON after 21", tooltip="cell at 20:60"];
    p4 [label="5 drop\nwaits on RIGHT_1 after 9", tooltip="drop at 21:7"];
    p5 [label="6 drop\nwaits on RIGHT_2 after 9", tooltip="drop at 21:25"];
    p6 [label="7 drop\nwaits on BELOW_1 after 9", tooltip="drop at 21:43"];
    p7 [label="8 drop\nwaits on BELOW_2 after 9", tooltip="drop at 21:61"];
    c0 [label="input", shape=plaintext];
    c0 -> p0 [label="ROW_1", style=solid, headlabel="LEFT"];
    c1 [label="input", shape=plaintext];
    c1 -> p2 [label="ROW_2", style=solid, headlabel="LEFT"];
    c2 [label="input", shape=plaintext];
    c2 -> p0 [label="COLUMN_1", style=solid, headlabel="ABOVE"];
    c3 [label="input", shape=plaintext];
    c3 -> p1 [label="COLUMN_2", style=solid, headlabel="ABOVE"];
    p0 -> p1 [label="ROW_1_ON", style=solid, taillabel="RIGHT", headlabel="LEFT"];
    p2 -> p3 [label="ROW_2_ON", style=solid, taillabel="RIGHT", headlabel="LEFT"];
    p0 -> p2 [label="COLUMN_1_ON", style=solid, taillabel="BELOW", headlabel="ABOVE"];
    p1 -> p3 [label="COLUMN_2_ON", style=solid, taillabel="BELOW", headlabel="ABOVE"];
    p1 -> p4 [label="RIGHT_1", style=solid, taillabel="RIGHT", headlabel="U"];
    p3 -> p5 [label="RIGHT_2", style=solid, taillabel="RIGHT", headlabel="U"];
    p2 -> p6 [label="BELOW_1", style=solid, taillabel="BELOW", headlabel="U"];
    p3 -> p7 [label="BELOW_2", style=solid, taillabel="BELOW", headlabel="U"];
    c12 [label="output", shape=plaintext];
    p0 -> c12 [label="C11\n2", style=solid, taillabel="PRODUCT"];
    c13 [label="output", shape=plaintext];
    p1 -> c13 [label="C12\n2", style=solid, taillabel="PRODUCT"];
    c14 [label="output", shape=plaintext];
    p2 -> c14 [label="C21\n2", style=solid, taillabel="PRODUCT"];
    c15 [label="output", shape=plaintext];
    p3 -> c15 [label="C22\n2", style=solid, taillabel="PRODUCT"];
  }
merge, as it ran.
  $ kahn_draw examples/merge.kahn --input examples/merge.input
  digraph network {
    rankdir=LR;
    node [shape=box];
    edge [labelfontsize=9, labeldistance=1.5, labelangle=45];
    p0 [label="1 merge\nwaits on LEFT after 28", tooltip="merge at 12:3"];
    c0 [label="input", shape=plaintext];
    c0 -> p0 [label="LEFT", style=solid, headlabel="U"];
    c1 [label="input", shape=plaintext];
    c1 -> p0 [label="RIGHT", style=solid, headlabel="V"];
    c2 [label="output", shape=plaintext];
    p0 -> c2 [label="BOTH\n9", style=solid, taillabel="W"];
  }
merge-ended, as it ran.
  $ kahn_draw examples/merge-ended.kahn --input examples/merge-ended.input
  digraph network {
    rankdir=LR;
    node [shape=box];
    edge [labelfontsize=9, labeldistance=1.5, labelangle=45];
    p0 [label="1 merge\nMARK=1000\nended after 34", style=filled, fillcolor=lightgrey, tooltip="merge at 14:3"];
    c0 [label="input", shape=plaintext];
    c0 -> p0 [label="LEFT", style=solid, headlabel="U"];
    c1 [label="input", shape=plaintext];
    c1 -> p0 [label="RIGHT", style=solid, headlabel="V"];
    c2 [label="output", shape=plaintext];
    p0 -> c2 [label="BOTH\n11", style=solid, taillabel="W"];
  }
moving-average, as it ran.
  $ kahn_draw examples/moving-average.kahn --input examples/moving-average.input
  digraph network {
    rankdir=LR;
    node [shape=box];
    edge [labelfontsize=9, labeldistance=1.5, labelangle=45];
    p0 [label="1 average\nwaits on SIGNAL after 21", tooltip="average at 10:3"];
    c0 [label="input", shape=plaintext];
    c0 -> p0 [label="SIGNAL", style=solid, headlabel="U"];
    c1 [label="output", shape=plaintext];
    p0 -> c1 [label="MEANS\n6", style=solid, taillabel="W"];
  }
noise.
  $ kahn_draw examples/noise.kahn
  digraph network {
    rankdir=LR;
    node [shape=box];
    edge [labelfontsize=9, labeldistance=1.5, labelangle=45];
    p0 [label="1 noise\nSEED=1", tooltip="noise at 9:3"];
    c0 [label="output", shape=plaintext];
    p0 -> c0 [label="NOISE", style=solid, taillabel="W"];
  }
pipeline, as it ran.
  $ kahn_draw examples/pipeline.kahn --input /dev/null
  digraph network {
    rankdir=LR;
    node [shape=box];
    edge [labelfontsize=9, labeldistance=1.5, labelangle=45];
    p0 [label="1 count\nN=6\nended after 13", style=filled, fillcolor=lightgrey, tooltip="count at 15:3"];
    p1 [label="2 square\nwaits on NUMBERS after 19", tooltip="square at 15:25"];
    p2 [label="3 successor\nwaits on SQUARES after 19", tooltip="successor at 15:54"];
    p0 -> p1 [label="NUMBERS", style=solid, taillabel="W", headlabel="U"];
    p1 -> p2 [label="SQUARES", style=solid, taillabel="W", headlabel="U"];
    c2 [label="output", shape=plaintext];
    p2 -> c2 [label="RESULTS\n6", style=solid, taillabel="W"];
  }
rates, as it ran.
  $ kahn_draw examples/rates.kahn --input examples/rates.input
  digraph network {
    rankdir=LR;
    node [shape=box];
    edge [labelfontsize=9, labeldistance=1.5, labelangle=45];
    p0 [label="1 low_pass\nwaits on SIGNAL after 40", tooltip="low_pass at 31:3"];
    p1 [label="2 take_first\nOF=2\nwaits on LOW after 34", tooltip="take_first at 31:29"];
    p2 [label="3 resample\nUP=3, DOWN=2\nwaits on HALF after 37", tooltip="resample at 31:58"];
    c0 [label="input", shape=plaintext];
    c0 -> p0 [label="SIGNAL", style=solid, headlabel="U"];
    p0 -> p1 [label="LOW", style=solid, taillabel="W", headlabel="U"];
    p1 -> p2 [label="HALF", style=solid, taillabel="W", headlabel="U"];
    c3 [label="output", shape=plaintext];
    p2 -> c3 [label="RESAMPLED\n9", style=solid, taillabel="W"];
  }
sample.
  $ kahn_draw examples/sample.kahn
  digraph network {
    rankdir=LR;
    node [shape=box];
    edge [labelfontsize=9, labeldistance=1.5, labelangle=45];
    p0 [label="1 f", peripheries=2, tooltip="f at 31:3"];
    p1 [label="2 g", tooltip="g at 31:18"];
    p2 [label="3 h\nINIT=0", tooltip="h at 31:35"];
    p3 [label="4 h\nINIT=1", tooltip="h at 31:51"];
    p0 -> p1 [label="X", style=solid, taillabel="W", headlabel="U"];
    p2 -> p0 [label="Y", style=solid, taillabel="V", headlabel="U"];
    p3 -> p0 [label="Z", style=solid, taillabel="V", headlabel="V"];
    p1 -> p2 [label="T1", style=solid, taillabel="V", headlabel="U"];
    p1 -> p3 [label="T2", style=solid, taillabel="W", headlabel="U"];
  }
sample-four-turns, as it ran.
  $ kahn_draw examples/sample-four-turns.kahn --input /dev/null
  digraph network {
    rankdir=LR;
    node [shape=box];
    edge [labelfontsize=9, labeldistance=1.5, labelangle=45];
    p0 [label="1 f\nended after 17", peripheries=2, style=filled, fillcolor=lightgrey, tooltip="f at 32:3"];
    p1 [label="2 g\nwaits on X after 13", tooltip="g at 32:18"];
    p2 [label="3 h\nINIT=0\nwaits on T1 after 8", tooltip="h at 32:35"];
    p3 [label="4 h\nINIT=1\nwaits on T2 after 8", tooltip="h at 32:51"];
    p0 -> p1 [label="X", style=solid, taillabel="W", headlabel="U"];
    p2 -> p0 [label="Y", style=solid, taillabel="V", headlabel="U"];
    p3 -> p0 [label="Z", style=solid, taillabel="V", headlabel="V"];
    p1 -> p2 [label="T1", style=solid, taillabel="V", headlabel="U"];
    p1 -> p3 [label="T2", style=solid, taillabel="W", headlabel="U"];
  }
sieve, as it ran.
  $ kahn_draw examples/sieve.kahn --input /dev/null
  digraph network {
    rankdir=LR;
    node [shape=box];
    edge [labelfontsize=9, labeldistance=1.5, labelangle=45];
    p0 [label="1 count\nFIRST=2, LAST=120\nended after 239", style=filled, fillcolor=lightgrey, tooltip="count at 17:3"];
    p1 [label="2 sift\nwaits on NUMBERS after 298", peripheries=2, tooltip="sift at 17:30"];
    p2 [label="3 sift\nwaits on ODD after 158", peripheries=2, tooltip="sift at 17:53"];
    p3 [label="4 sift\nwaits on NOT_BY_3 after 110", peripheries=2, tooltip="sift at 17:77"];
    p4 [label="5 sift\nwaits on NOT_BY_5 after 89", peripheries=2, tooltip="sift at 17:106"];
    p0 -> p1 [label="NUMBERS", style=solid, taillabel="W", headlabel="U"];
    p1 -> p2 [label="ODD", style=solid, taillabel="W", headlabel="U"];
    p2 -> p3 [label="NOT_BY_3", style=solid, taillabel="W", headlabel="U"];
    p3 -> p4 [label="NOT_BY_5", style=solid, taillabel="W", headlabel="U"];
    c4 [label="output", shape=plaintext];
    p4 -> c4 [label="PRIMES\n26", style=solid, taillabel="W"];
  }
small-buffer, as it ran.
  $ kahn_draw examples/small-buffer.kahn --input /dev/null
  digraph network {
    rankdir=LR;
    node [shape=box];
    edge [labelfontsize=9, labeldistance=1.5, labelangle=45];
    p0 [label="1 produce\nCOUNT=4\nended after 49", style=filled, fillcolor=lightgrey, tooltip="produce at 24:3"];
    p1 [label="2 consume\nROOM=3\nwaits on ORDERS after 60", tooltip="consume at 24:42"];
    p0 -> p1 [label="PARTS", style=solid, taillabel="PART", headlabel="PART"];
    p0 -> p1 [label="ORDERS", style=solid, taillabel="ORDER", headlabel="ORDER"];
    p1 -> p0 [label="CREDITS", style=solid, taillabel="CREDIT", headlabel="CREDIT"];
    c3 [label="output", shape=plaintext];
    p1 -> c3 [label="DONE\n4", style=solid, taillabel="W"];
  }
sorting, as it ran.
  $ kahn_draw examples/sorting.kahn --input examples/sorting.input
  digraph network {
    rankdir=LR;
    node [shape=box];
    edge [labelfontsize=9, labeldistance=1.5, labelangle=45];
    p0 [label="1 compare\nwaits on A after 16", tooltip="compare at 14:3"];
    p1 [label="2 compare\nwaits on C after 16", tooltip="compare at 14:38"];
    p2 [label="3 compare\nwaits on LOW_AB after 16", tooltip="compare at 15:7"];
    p3 [label="4 compare\nwaits on HIGH_AB after 16", tooltip="compare at 15:52"];
    p4 [label="5 compare\nwaits on MIDDLE_1 after 16", tooltip="compare at 16:7"];
    c0 [label="input", shape=plaintext];
    c0 -> p0 [label="A", style=solid, headlabel="U"];
    c1 [label="input", shape=plaintext];
    c1 -> p0 [label="B", style=solid, headlabel="V"];
    c2 [label="input", shape=plaintext];
    c2 -> p1 [label="C", style=solid, headlabel="U"];
    c3 [label="input", shape=plaintext];
    c3 -> p1 [label="D", style=solid, headlabel="V"];
    p0 -> p2 [label="LOW_AB", style=solid, taillabel="LOW", headlabel="U"];
    p0 -> p3 [label="HIGH_AB", style=solid, taillabel="HIGH", headlabel="U"];
    p1 -> p2 [label="LOW_CD", style=solid, taillabel="LOW", headlabel="V"];
    p1 -> p3 [label="HIGH_CD", style=solid, taillabel="HIGH", headlabel="V"];
    p2 -> p4 [label="MIDDLE_1", style=solid, taillabel="HIGH", headlabel="U"];
    p3 -> p4 [label="MIDDLE_2", style=solid, taillabel="LOW", headlabel="V"];
    c10 [label="output", shape=plaintext];
    p2 -> c10 [label="FIRST\n3", style=solid, taillabel="LOW"];
    c11 [label="output", shape=plaintext];
    p4 -> c11 [label="SECOND\n3", style=solid, taillabel="LOW"];
    c12 [label="output", shape=plaintext];
    p4 -> c12 [label="THIRD\n3", style=solid, taillabel="HIGH"];
    c13 [label="output", shape=plaintext];
    p3 -> c13 [label="FOURTH\n3", style=solid, taillabel="HIGH"];
  }
sorting.
  $ kahn_draw examples/sorting.kahn
  digraph network {
    rankdir=LR;
    node [shape=box];
    edge [labelfontsize=9, labeldistance=1.5, labelangle=45];
    p0 [label="1 compare", tooltip="compare at 14:3"];
    p1 [label="2 compare", tooltip="compare at 14:38"];
    p2 [label="3 compare", tooltip="compare at 15:7"];
    p3 [label="4 compare", tooltip="compare at 15:52"];
    p4 [label="5 compare", tooltip="compare at 16:7"];
    c0 [label="input", shape=plaintext];
    c0 -> p0 [label="A", style=solid, headlabel="U"];
    c1 [label="input", shape=plaintext];
    c1 -> p0 [label="B", style=solid, headlabel="V"];
    c2 [label="input", shape=plaintext];
    c2 -> p1 [label="C", style=solid, headlabel="U"];
    c3 [label="input", shape=plaintext];
    c3 -> p1 [label="D", style=solid, headlabel="V"];
    p0 -> p2 [label="LOW_AB", style=solid, taillabel="LOW", headlabel="U"];
    p0 -> p3 [label="HIGH_AB", style=solid, taillabel="HIGH", headlabel="U"];
    p1 -> p2 [label="LOW_CD", style=solid, taillabel="LOW", headlabel="V"];
    p1 -> p3 [label="HIGH_CD", style=solid, taillabel="HIGH", headlabel="V"];
    p2 -> p4 [label="MIDDLE_1", style=solid, taillabel="HIGH", headlabel="U"];
    p3 -> p4 [label="MIDDLE_2", style=solid, taillabel="LOW", headlabel="V"];
    c10 [label="output", shape=plaintext];
    p2 -> c10 [label="FIRST", style=solid, taillabel="LOW"];
    c11 [label="output", shape=plaintext];
    p4 -> c11 [label="SECOND", style=solid, taillabel="LOW"];
    c12 [label="output", shape=plaintext];
    p4 -> c12 [label="THIRD", style=solid, taillabel="HIGH"];
    c13 [label="output", shape=plaintext];
    p3 -> c13 [label="FOURTH", style=solid, taillabel="HIGH"];
  }
squares, as it ran.
  $ kahn_draw examples/squares.kahn --input /dev/null
  digraph network {
    rankdir=LR;
    node [shape=box];
    edge [labelfontsize=9, labeldistance=1.5, labelangle=45];
    p0 [label="1 count\nN=5\nended after 11", style=filled, fillcolor=lightgrey, tooltip="count at 6:3"];
    p1 [label="2 square\nwaits on NUMBERS after 16", tooltip="square at 6:25"];
    p0 -> p1 [label="NUMBERS", style=solid, taillabel="W", headlabel="U"];
    c1 [label="output", shape=plaintext];
    p1 -> c1 [label="SQUARES\n5", style=solid, taillabel="W"];
  }
table, as it ran.
  $ kahn_draw examples/table.kahn --input examples/table.input
  digraph network {
    rankdir=LR;
    node [shape=box];
    edge [labelfontsize=9, labeldistance=1.5, labelangle=45];
    p0 [label="1 look_up\nwaits on N after 289", tooltip="look_up at 22:3"];
    c0 [label="input", shape=plaintext];
    c0 -> p0 [label="N", style=solid, headlabel="U"];
    p0 -> p0 [label="TABLE", style=solid, taillabel="KEPT", headlabel="OLD"];
    c2 [label="output", shape=plaintext];
    p0 -> c2 [label="SINE\n10", style=solid, taillabel="W"];
  }
Rings: two rings.
  $ echo '' > given; sed '' rings.kahn | kahn_draw --input given
  digraph network {
    rankdir=LR;
    node [shape=box];
    edge [labelfontsize=9, labeldistance=1.5, labelangle=45];
    p0 [label="1 one\nwaits on A after 1", color=red, tooltip="one at 6:3"];
    p1 [label="2 two\nwaits on B after 1", color=red, tooltip="two at 6:17"];
    p2 [label="3 one\nwaits on D after 1", color=red, tooltip="one at 6:37"];
    p3 [label="4 two\nwaits on E after 1", color=red, tooltip="two at 6:51"];
    p4 [label="5 one\nwaits on U after 1", tooltip="one at 6:71"];
    p1 -> p0 [label="A", style=solid, taillabel="W", headlabel="U", color=red, penwidth=2];
    p0 -> p1 [label="B", style=solid, taillabel="W", headlabel="U", color=red, penwidth=2];
    p1 -> p1 [label="C", style=solid, taillabel="X", headlabel="V"];
    p3 -> p2 [label="D", style=solid, taillabel="W", headlabel="U", color=red, penwidth=2];
    p2 -> p3 [label="E", style=solid, taillabel="W", headlabel="U", color=red, penwidth=2];
    p4 -> p3 [label="F", style=solid, taillabel="W", headlabel="V"];
    c6 [label="output", shape=plaintext];
    p3 -> c6 [label="W\n0", style=solid, taillabel="X"];
    c7 [label="input", shape=plaintext];
    c7 -> p4 [label="U", style=solid, headlabel="U"];
  }
Rings: two rings, with values.
  $ echo 'U: 1 2 3' > given; sed '' rings.kahn | kahn_draw --input given
  digraph network {
    rankdir=LR;
    node [shape=box];
    edge [labelfontsize=9, labeldistance=1.5, labelangle=45];
    p0 [label="1 one\nwaits on A after 1", color=red, tooltip="one at 6:3"];
    p1 [label="2 two\nwaits on B after 1", color=red, tooltip="two at 6:17"];
    p2 [label="3 one\nwaits on D after 1", color=red, tooltip="one at 6:37"];
    p3 [label="4 two\nwaits on E after 1", color=red, tooltip="two at 6:51"];
    p4 [label="5 one\nwaits on U after 10", tooltip="one at 6:71"];
    p1 -> p0 [label="A", style=solid, taillabel="W", headlabel="U", color=red, penwidth=2];
    p0 -> p1 [label="B", style=solid, taillabel="W", headlabel="U", color=red, penwidth=2];
    p1 -> p1 [label="C", style=solid, taillabel="X", headlabel="V"];
    p3 -> p2 [label="D", style=solid, taillabel="W", headlabel="U", color=red, penwidth=2];
    p2 -> p3 [label="E", style=solid, taillabel="W", headlabel="U", color=red, penwidth=2];
    p4 -> p3 [label="F", style=solid, taillabel="W", headlabel="V"];
    c6 [label="output", shape=plaintext];
    p3 -> c6 [label="W\n0", style=solid, taillabel="X"];
    c7 [label="input", shape=plaintext];
    c7 -> p4 [label="U", style=solid, headlabel="U"];
  }
Rings: a ring of one.
  $ echo '' > given; sed 's/two(B, C, A, C)/two(C, B, A, C)/' rings.kahn | kahn_draw --input given
  digraph network {
    rankdir=LR;
    node [shape=box];
    edge [labelfontsize=9, labeldistance=1.5, labelangle=45];
    p0 [label="1 one\nwaits on A after 1", tooltip="one at 6:3"];
    p1 [label="2 two\nwaits on C after 1", color=red, tooltip="two at 6:17"];
    p2 [label="3 one\nwaits on D after 1", color=red, tooltip="one at 6:37"];
    p3 [label="4 two\nwaits on E after 1", color=red, tooltip="two at 6:51"];
    p4 [label="5 one\nwaits on U after 1", tooltip="one at 6:71"];
    p1 -> p0 [label="A", style=solid, taillabel="W", headlabel="U"];
    p0 -> p1 [label="B", style=solid, taillabel="W", headlabel="V"];
    p1 -> p1 [label="C", style=solid, taillabel="X", headlabel="U", color=red, penwidth=2];
    p3 -> p2 [label="D", style=solid, taillabel="W", headlabel="U", color=red, penwidth=2];
    p2 -> p3 [label="E", style=solid, taillabel="W", headlabel="U", color=red, penwidth=2];
    p4 -> p3 [label="F", style=solid, taillabel="W", headlabel="V"];
    c6 [label="output", shape=plaintext];
    p3 -> c6 [label="W\n0", style=solid, taillabel="X"];
    c7 [label="input", shape=plaintext];
    c7 -> p4 [label="U", style=solid, headlabel="U"];
  }
Rings: a ring of one, with values.
  $ echo 'U: 1 2 3' > given; sed 's/two(B, C, A, C)/two(C, B, A, C)/' rings.kahn | kahn_draw --input given
  digraph network {
    rankdir=LR;
    node [shape=box];
    edge [labelfontsize=9, labeldistance=1.5, labelangle=45];
    p0 [label="1 one\nwaits on A after 1", tooltip="one at 6:3"];
    p1 [label="2 two\nwaits on C after 1", color=red, tooltip="two at 6:17"];
    p2 [label="3 one\nwaits on D after 1", color=red, tooltip="one at 6:37"];
    p3 [label="4 two\nwaits on E after 1", color=red, tooltip="two at 6:51"];
    p4 [label="5 one\nwaits on U after 10", tooltip="one at 6:71"];
    p1 -> p0 [label="A", style=solid, taillabel="W", headlabel="U"];
    p0 -> p1 [label="B", style=solid, taillabel="W", headlabel="V"];
    p1 -> p1 [label="C", style=solid, taillabel="X", headlabel="U", color=red, penwidth=2];
    p3 -> p2 [label="D", style=solid, taillabel="W", headlabel="U", color=red, penwidth=2];
    p2 -> p3 [label="E", style=solid, taillabel="W", headlabel="U", color=red, penwidth=2];
    p4 -> p3 [label="F", style=solid, taillabel="W", headlabel="V"];
    c6 [label="output", shape=plaintext];
    p3 -> c6 [label="W\n0", style=solid, taillabel="X"];
    c7 [label="input", shape=plaintext];
    c7 -> p4 [label="U", style=solid, headlabel="U"];
  }
Rings: one ring and one that ended.
  $ echo '' > given; sed 's/one(A, B)/none(A, B)/' rings.kahn | kahn_draw --input given
  digraph network {
    rankdir=LR;
    node [shape=box];
    edge [labelfontsize=9, labeldistance=1.5, labelangle=45];
    p0 [label="1 none\nended after 0", style=filled, fillcolor=lightgrey, tooltip="none at 6:3"];
    p1 [label="2 two\nwaits on B after 1", tooltip="two at 6:18"];
    p2 [label="3 one\nwaits on D after 1", color=red, tooltip="one at 6:38"];
    p3 [label="4 two\nwaits on E after 1", color=red, tooltip="two at 6:52"];
    p4 [label="5 one\nwaits on U after 1", tooltip="one at 6:72"];
    p1 -> p0 [label="A", style=solid, taillabel="W", headlabel="U"];
    p0 -> p1 [label="B", style=solid, taillabel="W", headlabel="U"];
    p1 -> p1 [label="C", style=solid, taillabel="X", headlabel="V"];
    p3 -> p2 [label="D", style=solid, taillabel="W", headlabel="U", color=red, penwidth=2];
    p2 -> p3 [label="E", style=solid, taillabel="W", headlabel="U", color=red, penwidth=2];
    p4 -> p3 [label="F", style=solid, taillabel="W", headlabel="V"];
    c6 [label="output", shape=plaintext];
    p3 -> c6 [label="W\n0", style=solid, taillabel="X"];
    c7 [label="input", shape=plaintext];
    c7 -> p4 [label="U", style=solid, headlabel="U"];
  }
Rings: one ring and one that ended, with values.
  $ echo 'U: 1 2 3' > given; sed 's/one(A, B)/none(A, B)/' rings.kahn | kahn_draw --input given
  digraph network {
    rankdir=LR;
    node [shape=box];
    edge [labelfontsize=9, labeldistance=1.5, labelangle=45];
    p0 [label="1 none\nended after 0", style=filled, fillcolor=lightgrey, tooltip="none at 6:3"];
    p1 [label="2 two\nwaits on B after 1", tooltip="two at 6:18"];
    p2 [label="3 one\nwaits on D after 1", color=red, tooltip="one at 6:38"];
    p3 [label="4 two\nwaits on E after 1", color=red, tooltip="two at 6:52"];
    p4 [label="5 one\nwaits on U after 10", tooltip="one at 6:72"];
    p1 -> p0 [label="A", style=solid, taillabel="W", headlabel="U"];
    p0 -> p1 [label="B", style=solid, taillabel="W", headlabel="U"];
    p1 -> p1 [label="C", style=solid, taillabel="X", headlabel="V"];
    p3 -> p2 [label="D", style=solid, taillabel="W", headlabel="U", color=red, penwidth=2];
    p2 -> p3 [label="E", style=solid, taillabel="W", headlabel="U", color=red, penwidth=2];
    p4 -> p3 [label="F", style=solid, taillabel="W", headlabel="V"];
    c6 [label="output", shape=plaintext];
    p3 -> c6 [label="W\n0", style=solid, taillabel="X"];
    c7 [label="input", shape=plaintext];
    c7 -> p4 [label="U", style=solid, headlabel="U"];
  }
Rings: a chain to an input.
  $ echo '' > given; sed 's/two(E, F, D, W)/two(F, E, D, W)/' rings.kahn | kahn_draw --input given
  digraph network {
    rankdir=LR;
    node [shape=box];
    edge [labelfontsize=9, labeldistance=1.5, labelangle=45];
    p0 [label="1 one\nwaits on A after 1", color=red, tooltip="one at 6:3"];
    p1 [label="2 two\nwaits on B after 1", color=red, tooltip="two at 6:17"];
    p2 [label="3 one\nwaits on D after 1", tooltip="one at 6:37"];
    p3 [label="4 two\nwaits on F after 1", tooltip="two at 6:51"];
    p4 [label="5 one\nwaits on U after 1", tooltip="one at 6:71"];
    p1 -> p0 [label="A", style=solid, taillabel="W", headlabel="U", color=red, penwidth=2];
    p0 -> p1 [label="B", style=solid, taillabel="W", headlabel="U", color=red, penwidth=2];
    p1 -> p1 [label="C", style=solid, taillabel="X", headlabel="V"];
    p3 -> p2 [label="D", style=solid, taillabel="W", headlabel="U"];
    p2 -> p3 [label="E", style=solid, taillabel="W", headlabel="V"];
    p4 -> p3 [label="F", style=solid, taillabel="W", headlabel="U"];
    c6 [label="output", shape=plaintext];
    p3 -> c6 [label="W\n0", style=solid, taillabel="X"];
    c7 [label="input", shape=plaintext];
    c7 -> p4 [label="U", style=solid, headlabel="U"];
  }
Rings: a chain to an input, with values.
  $ echo 'U: 1 2 3' > given; sed 's/two(E, F, D, W)/two(F, E, D, W)/' rings.kahn | kahn_draw --input given
  digraph network {
    rankdir=LR;
    node [shape=box];
    edge [labelfontsize=9, labeldistance=1.5, labelangle=45];
    p0 [label="1 one\nwaits on A after 1", color=red, tooltip="one at 6:3"];
    p1 [label="2 two\nwaits on B after 1", color=red, tooltip="two at 6:17"];
    p2 [label="3 one\nwaits on D after 10", tooltip="one at 6:37"];
    p3 [label="4 two\nwaits on F after 16", tooltip="two at 6:51"];
    p4 [label="5 one\nwaits on U after 10", tooltip="one at 6:71"];
    p1 -> p0 [label="A", style=solid, taillabel="W", headlabel="U", color=red, penwidth=2];
    p0 -> p1 [label="B", style=solid, taillabel="W", headlabel="U", color=red, penwidth=2];
    p1 -> p1 [label="C", style=solid, taillabel="X", headlabel="V"];
    p3 -> p2 [label="D", style=solid, taillabel="W", headlabel="U"];
    p2 -> p3 [label="E", style=solid, taillabel="W", headlabel="V"];
    p4 -> p3 [label="F", style=solid, taillabel="W", headlabel="U"];
    c6 [label="output", shape=plaintext];
    p3 -> c6 [label="W\n3", style=solid, taillabel="X"];
    c7 [label="input", shape=plaintext];
    c7 -> p4 [label="U", style=solid, headlabel="U"];
  }
Rings: a fault beside a ring.
  $ echo '' > given; sed 's/send wait(U) on W end;/send 1 div 0 on W end;/; s/one(D, E)/none(D, E)/' rings.kahn | kahn_draw --input given
  digraph network {
    rankdir=LR;
    node [shape=box];
    edge [labelfontsize=9, labeldistance=1.5, labelangle=45];
    p0 [label="1 one\nfault division after 1", style=filled, fillcolor=salmon, tooltip="one at 6:3"];
    p1 [label="2 two\nwaits on B after 1", tooltip="two at 6:17"];
    p2 [label="3 none\nended after 0", style=filled, fillcolor=lightgrey, tooltip="none at 6:37"];
    p3 [label="4 two\nwaits on E after 1", tooltip="two at 6:52"];
    p4 [label="5 one\nfault division after 1", style=filled, fillcolor=salmon, tooltip="one at 6:72"];
    p1 -> p0 [label="A", style=solid, taillabel="W", headlabel="U"];
    p0 -> p1 [label="B", style=solid, taillabel="W", headlabel="U"];
    p1 -> p1 [label="C", style=solid, taillabel="X", headlabel="V"];
    p3 -> p2 [label="D", style=solid, taillabel="W", headlabel="U"];
    p2 -> p3 [label="E", style=solid, taillabel="W", headlabel="U"];
    p4 -> p3 [label="F", style=solid, taillabel="W", headlabel="V"];
    c6 [label="output", shape=plaintext];
    p3 -> c6 [label="W\n0", style=solid, taillabel="X"];
    c7 [label="input", shape=plaintext];
    c7 -> p4 [label="U", style=solid, headlabel="U"];
  }
Rings: a fault beside a ring, with values.
  $ echo 'U: 1 2 3' > given; sed 's/send wait(U) on W end;/send 1 div 0 on W end;/; s/one(D, E)/none(D, E)/' rings.kahn | kahn_draw --input given
  digraph network {
    rankdir=LR;
    node [shape=box];
    edge [labelfontsize=9, labeldistance=1.5, labelangle=45];
    p0 [label="1 one\nfault division after 1", style=filled, fillcolor=salmon, tooltip="one at 6:3"];
    p1 [label="2 two\nwaits on B after 1", tooltip="two at 6:17"];
    p2 [label="3 none\nended after 0", style=filled, fillcolor=lightgrey, tooltip="none at 6:37"];
    p3 [label="4 two\nwaits on E after 1", tooltip="two at 6:52"];
    p4 [label="5 one\nfault division after 1", style=filled, fillcolor=salmon, tooltip="one at 6:72"];
    p1 -> p0 [label="A", style=solid, taillabel="W", headlabel="U"];
    p0 -> p1 [label="B", style=solid, taillabel="W", headlabel="U"];
    p1 -> p1 [label="C", style=solid, taillabel="X", headlabel="V"];
    p3 -> p2 [label="D", style=solid, taillabel="W", headlabel="U"];
    p2 -> p3 [label="E", style=solid, taillabel="W", headlabel="U"];
    p4 -> p3 [label="F", style=solid, taillabel="W", headlabel="V"];
    c6 [label="output", shape=plaintext];
    p3 -> c6 [label="W\n0", style=solid, taillabel="X"];
    c7 [label="input", shape=plaintext];
    c7 -> p4 [label="U", style=solid, headlabel="U"];
  }
