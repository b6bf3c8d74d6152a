# The debhelper sequence `sframe`: `dh $@ --with sframe` runs dh_sframe before dh_strip, so that the debug files have the section's header, too.
use strict;
use warnings;
use Debian::Debhelper::Dh_Lib;

insert_before('dh_strip', 'dh_sframe');

1;
