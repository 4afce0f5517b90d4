//! The shared trials, tried on this implementation.

barfigol_tables::calls_of!(Peer = barfigol_peer);
barfigol_tables::suite_of!(Peer);
