%% Random choices from the process's seeded generator.
-module(pick).
-export([seed/1, range/2, one_of/1, chance/1, weighted/1, some/2, bytes/1, bits/1, width/1, text/1, shuffle/1]).

seed(Seed) -> rand:seed(exsss, {Seed, Seed, Seed}), ok.

range(Low, High) -> Low + rand:uniform(High - Low + 1) - 1.
one_of(List) -> lists:nth(rand:uniform(length(List)), List).
%% True once in N times.
chance(N) -> rand:uniform(N) =:= 1.

%% Calls one of the functions, each as often as its weight says.
weighted(Choices) ->
    Sum = lists:sum([Weight || {Weight, _} <- Choices]),
    weighted(rand:uniform(Sum), Choices).
weighted(N, [{Weight, Fun} | _]) when N =< Weight -> Fun();
weighted(N, [{Weight, _} | Rest]) -> weighted(N - Weight, Rest).

some(Count, Fun) -> [Fun() || _ <- lists:seq(1, Count)].
bytes(Count) -> rand:bytes(Count).
%% A number of so many bits at most.
bits(Count) -> rand:uniform(1 bsl Count) - 1.
%% A width in bits up to Most; the ends of the integer encodings are met often.
width(Most) -> min(Most, one_of([1, 7, 8, 9, 15, 16, 17, 27, 28, 31, 32, 33, 59, 60, 63, 64, 65, range(1, 300), range(2000, 2100)])).

%% Text of so many characters, from one alphabet: ASCII, Latin-1, or any of Unicode.
text(Count) -> text_in(one_of([ascii, ascii, latin1, unicode]), Count).
text_in(Alphabet, Count) -> some(Count, fun() -> character(Alphabet) end).

character(ascii) -> range($!, $~);
character(latin1) -> range(0, 255);
character(unicode) -> one_of([range(0, 127), range(128, 16#7ff), range(16#800, 16#d7ff), range(16#e000, 16#ffff), range(16#10000, 16#10ffff)]).

shuffle(List) -> [Item || {_, Item} <- lists:sort([{rand:uniform(), Item} || Item <- List])].
