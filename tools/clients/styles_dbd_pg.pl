#!/usr/bin/perl
# What DBD::Pg does over styles_server: styles_dbd_pg.pl HOST PORT. A line tells each thing that was tried, and what came.
use strict;
use warnings;
use DBI;
use DBD::Pg qw(:pg_types);
$| = 1;

my ($host, $port) = @ARGV;

sub connected {
    my $address = "dbi:Pg:host=$host;port=$port;dbname=demo";
    return DBI->connect($address, 'demo', '', { AutoCommit => 1, RaiseError => 1, PrintError => 0 });
}

# Prints what an action over a new connection gives, or its error: the code and the text.
sub tell_of {
    my ($what, $action) = @_;
    my $came = eval { $action->(connected()) };
    $came = "$DBI::state " . ($@ =~ s/ at \S+ line .*//sr =~ s/\s+/ /gr) if $@;
    print "$what: $came\n";
}

# The rows of four styles.
sub rows {
    my ($connection, $query, @given) = @_;
    return join ', ', map { join '|', @$_ } @{ $connection->selectall_arrayref($query, undef, @given) };
}

# The row of a statement whose parameter is said to be of a type.
sub typed {
    my ($connection, $type, $value) = @_;
    my $statement = $connection->prepare('?');
    $statement->bind_param(1, $value, { pg_type => $type });
    $statement->execute;
    return join '|', $statement->fetchrow_array;
}

sub behind_an_error {
    my ($connection) = @_;
    eval { rows($connection, '1 fortnight'); 1 } and return 'no error';
    return rows($connection, '1 day');
}

sub by_turns {
    my ($connection) = @_;
    my $other = connected();
    return join ', ', rows($connection, '1 day'), rows($other, '2 days'), rows($connection, '3 days');
}

tell_of('query', sub { rows($_[0], '1 mon -2 days') });
tell_of('do', sub { $_[0]->do('1 mon -2 days') });
tell_of('a text with two colons', sub { rows($_[0], '+1-2 -3 +4:05:06.7') });
tell_of('the same with pg_placeholder_nocolons', sub { $_[0]->{pg_placeholder_nocolons} = 1; rows($_[0], '+1-2 -3 +4:05:06.7') });
tell_of('a text as the parameter, which is sent in quotes', sub { rows($_[0], '?', '36:00') });
tell_of('the same as $1', sub { rows($_[0], '$1', '36:00') });
tell_of('the same of type interval', sub { typed($_[0], PG_INTERVAL, '36:00') });
tell_of('null, which is sent as NULL', sub { rows($_[0], '?', undef) });
tell_of('no interval', sub { rows($_[0], '1 fortnight') });
tell_of('a query behind an error', \&behind_an_error);
tell_of('two connections by turns', \&by_turns);
tell_of('begin_work', sub { $_[0]->begin_work; rows($_[0], '1 day') });
