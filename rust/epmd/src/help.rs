//! What `--help` prints.

pub const HELP: &str = "\
birken-epmd: an Erlang port mapper (EPMD)

  birken-epmd [OPTIONS]                  serve
  birken-epmd --names [OPTIONS]          ask a running mapper for its names
  birken-epmd --port-of NAME [OPTIONS]   ask it where the node of a name listens

  --address IP[,IP]       where to listen besides loopback, or whom to ask; may be given again
                          (ERL_EPMD_ADDRESS; else 127.0.0.1 and ::1)
  --port N                its port (ERL_EPMD_PORT; else 4369); 0 picks one and prints it
  --allow-remote-registration
                          callers of other machines may register too, not only ask
  --state-dir PATH        where the mark is kept by which no creation comes again
                          (STATE_DIRECTORY, XDG_STATE_HOME/birken-epmd, ~/.local/state/birken-epmd)
  --no-state              no mark: creations by the clock, at most a thousand a second
  --first-creation N      in place of the clock's number, 1 to 4294967295; a mark ahead of it wins
  --max-connections N     when these are taken, a caller without a node leaves for the next (512)
  --idle-timeout SECONDS  a connection without a node is closed after these (60)
  --keepalive-idle, --keepalive-interval SECONDS, --keepalive-count N
                          a node that is silent for 60 s is asked every 15 s whether it is there,
                          and is gone after 4 questions without an answer
  --quiet                 no log lines
  --json                  log lines, or what was asked for, as JSON
  --help, --version

Sockets that systemd hands over (LISTEN_FDS) take the place of --address and --port.
SIGTERM and SIGINT end it. Exit status: 0, 1 if it cannot serve or ask or nobody has the name,
2 for bad options.
";
