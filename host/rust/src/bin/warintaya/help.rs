//! The texts behind `--help`.

pub const WHOLE: &str = "\
warintaya: channel coding for the layers of an ISDB-T station

  warintaya code      transport streams into frames of carriers
  warintaya back      frames of carriers into transport streams
  warintaya replace   one packet of a coded frame, in its carriers and in the state behind it
  warintaya frames    the sizes of frames, their times, and the bit rates at each guard interval
  warintaya demo      a stream coded, damaged, received, its clock replaced late, and its guide spoiled by a wrong count

  warintaya SUBCOMMAND --help, or warintaya help SUBCOMMAND, tells more.

A station has one mode and up to three layers, A, B and C, with at most 13 segments in all:
  --mode 1|2|3  --layer A=qpsk,2/3,1  --layer B=64qam,3/4,12
A layer's settings are its modulation (qpsk, 16qam, 64qam), its rate (1/2, 2/3, 3/4, 5/6, 7/8) and its segments (1 to 13). Layer A
alone can be given by three options as well:
  --mode 1|2|3  --modulation qpsk|16qam|64qam  --rate 1/2|2/3|3/4|5/6|7/8  --segments 1..13

A stream that is coded and received comes back byte for byte:
  warintaya code --mode 3 --modulation 64qam --rate 7/8 --segments 13 -i stream.ts |
  warintaya back --mode 3 --modulation 64qam --rate 7/8 --segments 13 -o same.ts

Each layer has an input and an output of its own:
  warintaya code --mode 1 --layer A=qpsk,2/3,1 --layer B=64qam,3/4,12 -i A=small.ts -o A=small.carriers \\
                 -i B=main.ts -o B=main.carriers

Status: 0 done; 1 the call is understood, and it is refused or fails: a setting that is not legal, a file, the input; 2 the words
do not make a call: an option is not known, missing, given twice or excluded by another, or names a layer or a file in a form that
can not be; 129, 130 and 143 it was ended by SIGHUP, SIGINT or SIGTERM.
What is wrong is told in one line, with the number of the refusal. Packets, frames and bytes are counted from 0.

SIGINT, SIGTERM and SIGHUP end a run without --state as soon as it can end: its files do not take their places. A run with --state
ends behind a whole frame: its files take their places, the state is kept, and a later run goes on from there; a line says behind
how many frames that is, and how many bytes of the next had been read. Before the first frame all stays as it was. A second signal
ends it at once, as a failure does.
";

pub const CODE: &str = "\
warintaya code: transport streams into frames of carriers

  warintaya code --mode M --modulation NAME --rate R --segments N [-i FILE] [-o FILE] [--state FILE [--keep-every N]]
                 [--fill|--exact] [--resync] [--stuff --guard G] [--quiet]
  warintaya code --mode M --layer A=NAME,R,N [--layer B=NAME,R,N] [--layer C=NAME,R,N] [-i A=FILE -o A=FILE] [-i B=FILE ..] ..

Reads packets of 188 bytes and writes a byte for each carrier, frame by frame. Packets of 204 bytes, with 16 of parity behind, and
of 192, with a time stamp of four in front, are known by where 47 stands in the first ones; their 188 bytes are taken, and the line
at the end says so. A packet that does not begin with 47 is told with its number and place, and the run ends with status 1, unless
--resync is given. A packet that is cut off at the end is left out; a line tells it, also with --quiet.

  --layer L=NAME,R,N the settings of layer A, B or C, in place of --modulation, --rate and --segments, which are layer A alone
  -i FILE, -o FILE   in place of standard input and output. A file is written beside its place and put there when all is done, so
                     that a run that fails leaves the old one; one that is read-only is refused. On standard output, a pipe or a
                     device the frames before a failure are out already.
  -i L=FILE, -o L=FILE
                     the input and the output of a layer. A frame of each layer is coded in turn; a stream that ends before the
                     others is done. A layer that has neither is left as it is. Where a station has one layer, or one alone is
                     named, what is not given is standard input or output; where more are named each has both, and - stands for
                     standard input. A file that is called 'A=..' is written './A=..'.
  --fill             the stream ends here: the last frame is filled up with padding, null packets that name themselves, and one
                     more frame of them follows where the receiver's delay of 12 packets asks for it. 'warintaya back' takes
                     padding off again. This is so unless --state or --exact is given. Each layer is filled for itself.
  --exact            no padding: a stream that does not fill its last frame is refused. This is so where --state is given: the
                     stream goes on in the next run.
  --resync           goes on behind a packet that does not begin with 47, and where the input begins within a packet: at the next
                     place from which on five packets in a row begin with 47, or all that there are before the end. What lies
                     between is left out. A line tells it each time, for the first ten times, and the line at the end counts all.
  --stuff            for an input that may pause, as a live one does: a frame goes out when it is full, or when a frame's time has
                     gone by since the last one; what it lacks then is padding. The last frame is filled as with --fill.
  --guard G          the guard interval, 1/4, 1/8, 1/16 or 1/32, which gives the time of a frame for --stuff
  --state FILE       goes on from the record in FILE, if there is one, and leaves there the record behind the last frames, with all
                     layers; the settings may then be left out, and have to agree if they are given. While a run uses FILE,
                     another one is refused. A run that fails leaves a record that fits what went out: of a layer whose output is
                     standard output, a pipe or a device it is that behind its last whole frame, of the others that from before;
                     the line says so. A file with the state of one layer, of 1,487 bytes, is taken as layer A alone.
  --keep-every N     with --state: keeps the record behind each N frames too, so that a power cut costs no more than those. It is
                     for standard output, pipes and devices; a file takes its place only at the end.
  --quiet            no lines on standard error but those of a failure and of what is left out
";

pub const BACK: &str = "\
warintaya back: frames of carriers into transport streams

  warintaya back --mode M --modulation NAME --rate R --segments N [-i FILE] [-o FILE] [--state FILE [--keep-every N]]
                 [--slots | [--leave-out-lost] [--keep-padding]] [--json FILE] [--fail-on-loss] [--quiet]
  warintaya back --mode M --layer A=NAME,R,N [--layer B=NAME,R,N] [--layer C=NAME,R,N] [-i A=FILE -o A=FILE] [-i B=FILE ..] ..

Reads a byte for each carrier, frame by frame, and writes packets of 188 bytes in the order in which they were sent. Packets come
out late: the first frame gives 12 fewer than it holds. A value that the modulation does not have, or a frame that is cut off at
the end, is told with its place, and the run ends with status 1.

A packet that can not be had, because no codeword is within eight bytes or because it does not begin with 47, is written as a null
packet with the transport error indicator (47 9F FF 10, then FF), so that those behind it keep their places. It is not a failure:
the line at the end counts such packets, and the status is 0, unless --fail-on-loss is given.

  --layer L=NAME,R,N the settings of a layer, and
  -i FILE, -o FILE   in place of standard input and output, and
  -i L=FILE, -o L=FILE
                     the input and the output of a layer: as for 'warintaya code'
  --leave-out-lost   writes nothing for a packet that can not be had
  --keep-padding     writes the padding that 'warintaya code' has put in, too
  --slots            writes 189 bytes for every packet, padding too: how many bytes were corrected (0 to 8) and the packet, or 255
                     (no codeword within eight bytes) or 254 (it does not begin with 47) and zeros
  --json FILE        writes a line for each frame while the run goes on, into a file anew, a pipe, or standard output (-):
                     {\"layer\":\"A\",\"frame\":0,\"given\":4,\"corrected\":0,\"mended\":0,\"wrong_start\":0,\"lost\":0,\"wrong_bits\":null}
                     These are the frame's number in the run, the packets that it gave, bytes corrected, packets with such
                     bytes, packets that do not begin with 47, packets lost, and the bits of its carriers that were wrong on the
                     way. For these the packets are coded again, so that they are known where all packets of the frame and of the
                     one before have come, and null elsewhere: for the first and the last frame of a run, for a frame with a lost
                     packet and the one behind it. A line is written one frame late.
  --fail-on-loss     ends with status 1 where a packet could not be had; all is written as ever
  --state FILE       goes on from the record in FILE, if there is one, and leaves there the record behind the last frames. A file
                     with the state of one layer, of 4,560 bytes, is taken as layer A alone. For the rest, and for
  --keep-every N     see 'warintaya code'
  --quiet            no lines on standard error but those of a failure
";

pub const REPLACE: &str = "\
warintaya replace: one packet of a coded frame, in its carriers and in the state behind it

  warintaya replace --state FILE [--layer L] --packet NUMBER --new FILE [--old FILE] [--frame NUMBER] [-i FILE] [-o FILE]
                    [--unchecked] [--quiet]

Reads the carriers of a frame of a layer, or of several frames, and writes them with the packet replaced: they are then as if its
frame had been coded with the new packet. The state of the layer is replaced too, and the next frame has to be coded from it.

The packet that was coded is read first, from the carriers and from what is behind them: the next frame, or the state. Carriers and a
state that are not of one frame are thereby refused.

  --state FILE     the record that 'warintaya code --state FILE' left behind the last frame of the input; it is written anew. A run
                   that fails, or that a signal ends, leaves it as it was.
  --layer L        the layer, A, B or C; the only one if nothing is said
  --packet NUMBER  the packet's number in its frame, from 0 on. How many there are is what the record says of its layer.
  --old FILE       the packet that is to be replaced, 188 bytes. Another one than was coded there is refused: replacing it would
                   leave a packet with correct parity that nobody has written. Where it is left out the coded one is taken.
  --unchecked      nothing is read first, which takes as long as receiving two frames: --old has to be the packet that was coded
  --new FILE       the packet that is to stand there, 188 bytes
  --frame NUMBER   the frame, from 0 on; the last one if nothing is said. A packet near the end of its frame runs on into the next:
                   if that frame is coded already, the replacement is refused.
  -i FILE, -o FILE in place of standard input and output; they may be the same file
  --quiet          no line on standard error but that of a failure
";

pub const FRAMES: &str = "\
warintaya frames: the sizes of frames, their times, and the bit rates at each guard interval

  warintaya frames [--mode M] [--modulation NAME] [--rate R] [--segments N] [--guard G]
  warintaya frames --mode M --layer A=NAME,R,N [--layer B=NAME,R,N] [--layer C=NAME,R,N] [--guard G]

Prints a table: the packets of a frame, their bytes, its carriers, which are the bytes of a coded frame, and for each guard interval
the bits a second of its packets, rounded down, so that a stream of this rate never has more than fit (ffmpeg's -muxrate). It has
all 585 settings, or those that have what is given; or a row for each layer of a station, and the sum of their segments. More than
13 are refused. Behind it stands how long a frame is on the air, for each mode of the table, in milliseconds.

  --guard G        one guard interval alone, 1/4, 1/8, 1/16 or 1/32
";

pub const DEMO: &str = "\
warintaya demo: a stream coded, damaged, received, its clock replaced late, and its guide spoiled by a wrong count

  warintaya demo

Makes a station with two layers, codes a stream with a programme guide and a clock, replaces the clock in a frame that is coded
already, shows which carriers changed, compares with coding the frame again, damages the carriers and receives them. Then it tells
what once happened: the station has grown, a replacement still counts packets by the old frame, and the receiver takes the spoiled
guide as good. The status is 0 only if everything agreed.
";
