#!/usr/bin/perl
# What DBD::Pg does over the server: dbd_pg.pl HOST PORT. A line tells each thing that was tried, and what came.
use strict;
use warnings;
use DBI;
use DBD::Pg qw(:async);
use POSIX ();
$| = 1;

my ($host, $port) = @ARGV;

sub connected {
    my ($options) = @_;
    my $address = "dbi:Pg:host=$host;port=$port;dbname=rosters" . ($options // '');
    return DBI->connect($address, 'demo', '', { AutoCommit => 1, RaiseError => 1, PrintError => 0 });
}

# Prints what an action over a new connection gives, or its error: the code and the beginning of the text.
sub tell_of {
    my ($what, $action, $options) = @_;
    my $came = eval { $action->(connected($options)) };
    if ($@) {
        my $text = $@ =~ s/ at \S+ line .*//sr =~ s/\s+/ /gr;
        $came = ($DBI::state || '') . ' ' . substr($text, 0, 100);
    }
    print "$what: $came\n";
}

sub rows {
    my ($connection, $query) = @_;
    return join ', ', map { join ' ', @$_ } @{ $connection->selectall_arrayref($query) };
}

sub copied {
    my ($connection) = @_;
    my ($line, @lines);
    $connection->do('COPY leave TO STDOUT');
    push @lines, $line =~ s/\t/ /gr =~ s/\n//r while $connection->pg_getcopydata($line) >= 0;
    return join ', ', @lines;
}

# Asks a query in a transaction, and ends that so.
sub ended {
    my ($connection, $end) = @_;
    my $rows = rows($connection, 'corrections');
    $connection->$end;
    return $rows;
}

# Begins `slow`, cancels it, and uses the connection further.
sub canceled_async {
    my ($connection) = @_;
    $connection->do('slow', { pg_async => PG_ASYNC });
    sleep 1;
    my $canceled = $connection->pg_cancel;
    return "pg_cancel gives $canceled, and then " . rows($connection, 'corrections');
}

sub canceled_by_signal {
    my ($connection) = @_;
    my $query = $connection->prepare('slow');
    POSIX::sigaction(POSIX::SIGALRM(), POSIX::SigAction->new(sub { $query->cancel }));
    alarm 1;
    eval { $query->execute; 1 } and return 'not canceled';
    return $query->state . ', and then ' . rows($connection, 'corrections');
}

tell_of('query', sub { rows($_[0], 'shifts') });
tell_of('unknown relation', sub { rows($_[0], 'nosuch') });
tell_of('begin_work and commit', sub { $_[0]->begin_work; ended($_[0], 'commit') });
tell_of('AutoCommit => 0 and commit', sub { $_[0]->{AutoCommit} = 0; ended($_[0], 'commit') });
tell_of('COPY and pg_getcopydata', \&copied);
tell_of('pg_cancel of an async query', \&canceled_async);
tell_of('cancel from a signal', \&canceled_by_signal);
tell_of('ping', sub { $_[0]->ping || 'no' });
tell_of('rollback', sub { $_[0]->begin_work; ended($_[0], 'rollback') });
tell_of('IntervalStyle in options', sub { rows($_[0], 'corrections') }, ";options='-c IntervalStyle=iso_8601'");
