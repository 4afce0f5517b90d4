//! The shared trials, tried on the library.

barfigol_tables::calls_of!(Library = barfigol::raw);
barfigol_tables::suite_of!(Library);
