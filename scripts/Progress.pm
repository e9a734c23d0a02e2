package Progress;
# The moving line of long runs, as progress.py draws it for Python: on standard error, where that is a terminal.
use strict;
use warnings;

my $begun = time;

# What was done, of how many, and the rest in time; nothing where all is done.
sub show {
    my ($done, $total, $what) = @_;
    return if !-t STDERR;
    my $left = $done ? sprintf ', %d s left', (time - $begun) / $done * ($total - $done) : '';
    print STDERR "\r\e[K", $done < $total ? "$done of $total $what$left" : '';
}

1;
