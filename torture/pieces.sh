#!/usr/bin/env bash
# Changes the bytes of the eleven pages of a long text in a repository's file, one at a time (each of them, or every so
# manyth as the first word says), by a bit and by all bits, and the head of each page by every other byte too. Behind each
# change `history` has to answer what docs/FORMATS.md says: the text with that byte, another put, nothing,
# or the page that is damaged. What it says is worked out here, in perl, from the bytes alone. Ends with counts, and with status
# 0 where all were right. It is the program that ./swallow starts.
top="$(cd "$(dirname "${BASH_SOURCE[0]}")/.." && pwd)" || exit 1
work=$(mktemp -d) || exit 1
trap 'rm -rf "$work"' EXIT
. "$top/release/start.sh" && find_program swallow_main || exit 1
printf 'swallow plan 1\nrun 1\nrepositories 1\nbrokers 1\nact broker 1 home 1 timeout 5 tries 3\nlet t = "0123456789"\nrepeat 12\nlet t = t & t\nend\nwrite 1.1 t\nprint len(t)\ndone\n' > "$work/plan"
mkdir "$work/data"
# Sixteen pages: a look reads them all.
truncate -s $((4096 * 16)) "$work/data/repository-1-0"
"$program" "$work/data" run < "$work/plan" | grep -qx 'print 40960' || exit 1
cat > "$work/judge.pl" <<'P'
use strict;
my ($program, $work, $step) = @ARGV;
my $whole = do { local $/; open my $f, '<:raw', "$work/data/repository-1-0" or die; <$f> };
my $blank = "\0" x 4096;

# How a value is printed.
sub printed {
  my $said = '';
  for my $c (unpack 'C*', $_[0]) {
    $said .= $c == 34 ? '\\"' : $c == 92 ? '\\\\' : $c == 10 ? '\\n' : $c >= 32 && $c < 127 ? chr $c : sprintf '\\x%02x', $c;
  }
  return "\"$said\"";
}

# The put that these bytes are, with no put before it: its object and its text. None where they aren't one.
sub put {
  my ($bytes) = @_;
  return unless length $bytes > 4091 && substr($bytes, 0, 1) eq "\x01";
  my ($repository, $number, $high, $low, $broker, $home, $step, $tag, $length) = unpack 'x C N N N C C N C N', $bytes;
  return unless $repository >= 1 && $repository <= 16 && $tag == 3 && $length > 1000 && $length <= 65536;
  return unless length $bytes == 1 + 5 + 14 + 5 + $length + 6 && substr($bytes, -6) eq "\xff" x 6;
  my $clock = $high * 4294967296 + $low;
  return unless $clock >= 1 && $clock < 1099511627776 && $broker >= 1 && $broker <= 16 && $home >= 1 && $home <= 16 && $step >= 1;
  return ("$repository.$number", substr($bytes, 25, $length), $clock == 1 && $broker == 1 && $home == 1 && $step == 1);
}

# What the pages from 1 to 11 come to; 0 and those from 12 are as they were.
sub judged {
  my ($image) = @_;
  my ($pieces, @puts);
  for my $p (1 .. 11) {
    my $page = substr $image, $p * 4096, 4096;
    if (substr($page, 0, 1) ne "\xa5") { undef $pieces; next }
    my ($form, $length, $piece) = unpack 'x C n C', $page;
    # With one byte changed none of these pages is one of whole effects, in either format: what begins there is no effect.
    return "damaged $p" unless $form == 2 && $piece >= 1 && $piece <= 3 && $length >= 1 && $length <= 4091;
    return "damaged $p" unless substr($page, 5 + $length) eq "\0" x (4091 - $length);
    return "damaged $p" if $piece != 3 && $length != 4091;
    my $bytes = substr $page, 5, $length;
    if ($piece == 1) { $pieces = $bytes; next }
    return "damaged $p" unless defined $pieces;
    $pieces .= $bytes;
    next if $piece == 2;
    my @put = put($pieces) or return "damaged $p";
    push @puts, \@put;
    undef $pieces;
  }
  return @puts ? $puts[0] : 'nothing';
}

my @changes;
for my $p (1 .. 11) {
  for my $at (0 .. 4095) {
    my $old = ord substr $whole, $p * 4096 + $at, 1;
    my @new = $at < 5 ? grep { $_ != $old } 0 .. 255 : ($old ^ 1, $old ^ 255);
    next if $at >= 5 && ($p * 4096 + $at) % $step;
    push @changes, [$p * 4096 + $at, $_] for @new;
  }
}

sub answer {
  my ($folder) = @_;
  my $text = `$program $folder history 1.1 2> /dev/null`;
  return (($? >> 8), $text);
}

# Each of four processes takes every fourth change.
my @pipes;
for my $me (0 .. 3) {
  pipe my $from, my $to;
  if (!fork) {
    my $folder = "$work/copy-$me";
    system('cp', '-r', "$work/data", $folder);
    my (%count, @wrong);
    for (my $i = $me; $i < @changes; $i += 4) {
      my ($at, $new) = @{$changes[$i]};
      my $image = $whole;
      substr($image, $at, 1) = chr $new;
      open my $f, '+<:raw', "$folder/repository-1-0" or die;
      seek $f, $at, 0;
      print $f chr $new;
      close $f;
      my $due = judged($image);
      my ($status, $text) = answer($folder);
      my ($kind, $right);
      if (ref $due) {
        my ($object, $value, $same) = @$due;
        if ($object ne '1.1') { $kind = 'a put of another object'; $right = $status == 0 && $text eq "history 1.1\norigin end none\n" }
        elsif (!$same) { $kind = 'a put at another time'; $right = $status == 0 && index($text, printed($value)) > 0 }
        else { $kind = 'the text with that byte'; $right = $status == 0 && index($text, "version 1.1.1/1 committed " . printed($value) . " end") > 0 }
      }
      elsif ($due eq 'nothing') { $kind = 'nothing, for want of its last piece'; $right = $status == 0 && $text eq "history 1.1\norigin end none\n" }
      else { $kind = 'a damaged page, by its number'; $right = $status == 6 && $text =~ /^down repository 1 $due$/m }
      $count{$kind}++;
      push @wrong, "byte $at becomes $new: $kind" . ($kind =~ /damaged/ ? " ($due)" : '') . ", and came status $status: " . substr($text, 0, 80) unless $right;
      open $f, '+<:raw', "$folder/repository-1-0" or die;
      seek $f, $at, 0;
      print $f substr $whole, $at, 1;
      close $f;
    }
    print $to "$_\t$count{$_}\n" for keys %count;
    print $to "WRONG\t$_\n" for @wrong;
    exit 0;
  }
  close $to;
  push @pipes, $from;
}
my (%count, $wrong);
for my $from (@pipes) {
  while (<$from>) {
    chomp;
    my ($kind, $rest) = split /\t/, $_, 2;
    if ($kind eq 'WRONG') { print "WRONG $rest\n" if ++$wrong <= 20 }
    else { $count{$kind} += $rest }
  }
}
printf "%7d %s\n", $count{$_}, $_ for sort keys %count;
printf "%d changes, %d wrong\n", scalar @changes, $wrong // 0;
exit($wrong ? 1 : 0);
P
perl "$work/judge.pl" "$program" "$work" "${1:-1}"
