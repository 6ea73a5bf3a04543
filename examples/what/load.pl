# Objects, closures, matches and compiled texts, of which some are kept.
my (%kept, @list);
package Thing; sub new { my ($class, %all) = @_; bless { %all, list => [1 .. 3] }, $class } package main;
for my $i (1 .. 3000) {
    my $thing = Thing->new(id => $i, name => "name$i");
    $kept{"k$i"} = $thing if $i % 3 == 0;
    my @found = ("a$i b" =~ /(\w+)\s(\w)/);
    my $sub = sub { $i + $thing->{id} };
    push @list, $sub if $i % 5 == 0;
    push @list, qr/foo$i(bar)?/ if $i % 50 == 0;
    my $made = eval "sub { \$_[0] + $i }";
    push @list, $made if $i % 20 == 0;
    delete $kept{"k" . ($i - 30)} if $i % 6 == 0;
    my %small = map { $_ => $i } 1 .. 10;
    my $text = sprintf("%s-%d", "q" x 30, $i);
}
<STDIN>;
