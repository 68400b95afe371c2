//! What `--help` prints.

pub const ALL: &str = "\
rinnamoyle: check logins against scrypt cards, in as much memory as you have

  rinnamoyle login CARD        is this user:password good for the card? yes, no or refused
  rinnamoyle card write FILE   make a card for a password
  rinnamoyle card show FILE    what a card says
  rinnamoyle plan              what scratch buys: memory against time, on this machine

Each with --help says more.

A card holds a salt, a key that scrypt (RFC 7914) made from a password and that salt, and what the making
cost: N steps, blocks of 128*r bytes, p lanes. Checking a login makes the key again. That takes memory, called
scratch, and work, counted in block mixings. With less scratch fewer blocks are stored, only every k-th, and
the others are made again when they are wanted: the same key, more mixings. The allowance is the most mixings
that you will pay for; what could go above it is refused before it begins.

Passwords come from standard input, never from the command line. Numbers may be written 65536, 64K, 16M, 1G
or 2^16. Exit status: 0 yes or done, 1 no, 2 refused or an error.

A first card and a first login:

  printf 'open sesame' | rinnamoyle card write rover.card --salt 0123456789abcdef
  printf 'rover:open sesame' | rinnamoyle login rover.card
";

pub const LOGIN: &str = "\
rinnamoyle login CARD [--scratch BYTES] [--allowance MIXINGS]

Reads user:password from standard input and holds it to the card in the file CARD. One newline at the end is
dropped; every other byte counts. The password is what follows the last colon.

  --scratch BYTES       memory to lend. Default: enough to store every block of this card, at most 256M
  --allowance MIXINGS   the most block mixings to pay for. Default 2^24, about a quarter of a minute at r = 8

Prints yes (exit status 0), no (1), or refused with the desk, the number and its meaning (2):

  the card's desk      21 to 25
  the text's desk      31 and 32
  the derivation's     1, 8 and 9

They are asked in this order, and a refusal costs nothing. `rinnamoyle plan --card CARD` shows what more or
less scratch would mean for this card.

  printf 'rover:open sesame' | rinnamoyle login rover.card --scratch 64K
";

pub const CARD_WRITE: &str = "\
rinnamoyle card write FILE --salt HEX [--n N] [--r R] [--p P] [--key-length BYTES]
                      [--scratch BYTES] [--allowance MIXINGS] [--force]

Reads a password from standard input (one newline at the end is dropped) and writes a card for it.

  --salt HEX            8 to 64 bytes, as hex digits: random, and another for each card, for instance from
                        `openssl rand -hex 16`
  --n N                 steps of each pass: a power of two, 2 to 1,048,576, and with r = 1 at most 32,768.
                        Default 16,384; it doubles the time and the memory each time it doubles
  --r R                 a block is 128*R bytes, R from 1 to 32. Default 8
  --p P                 lanes, one after another, 1 to 64. Default 1; more lanes take time and hardly any memory
  --key-length BYTES    16 to 64. Default 32
  --scratch BYTES       memory to lend. Default: enough to store every block, at most 256M
  --allowance MIXINGS   the most block mixings to pay for. Default 2^24
  --force               write over a file that is there

  printf 'open sesame' | rinnamoyle card write rover.card --salt \"$(openssl rand -hex 16)\"
";

pub const CARD_SHOW: &str = "\
rinnamoyle card show FILE [--key]

Prints what the card says: costs, salt and the key's length. With --key the key too: whoever has it can try
passwords at leisure.
";

pub const PLAN: &str = "\
rinnamoyle plan [--n N] [--r R] [--p P | --card FILE] [--scratch BYTES]... [--allowance MIXINGS] [--plot FILE.svg]

Prints what scratch buys. For each scratch: the spacing k, how many blocks are stored, the mixings at worst, and
about how long that takes here, measured now: usually, and at worst.

  --n, --r, --p         the costs. Default N = 16,384, r = 8, p = 1
  --card FILE           the costs of this card instead
  --scratch BYTES       a row for this scratch; may be given often. Default: a row for each spacing, with the
                        shortest scratch that it needs
  --allowance MIXINGS   say which rows it would refuse
  --plot FILE.svg       draw scratch against the worst case

The spacing k is the smallest power of two for which N/k stored blocks, p lanes and 3 blocks of working room fit
into the scratch. The worst case is p*N*(k + 1) mixings; usually it is about p*N*(k + 3)/2.

  rinnamoyle plan --scratch 64K --scratch 1M --scratch 16M
";
