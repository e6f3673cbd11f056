%% Standalone messages from our own generator: sound ones, ones with a spoilt part, changed bytes, and the ends of the limits.
-module(inputs).
-export([message/0, changed_bytes/1, lists_of/1]).

message() ->
    harmless(fun() ->
        pick:weighted([{60, fun sound/0}, {20, fun spoilt/0}, {15, fun() -> changed(sound()) end},
                       {3, fun() -> cut_or_longer(sound()) end}, {1, fun limit/0}])
    end).

%% A sound message with some bytes changed, or as it is where that cannot be told to be harmless.
changed_bytes(Bytes) ->
    case is_harmless(Bytes) of
        true -> harmless(fun() -> changed(Bytes) end);
        false -> Bytes
    end.

%% References of no words are not made: the binary_to_term of OTP 25 reads past them and can end its own emulator
%% (131, 104, 2, 90, 0, 0, 119, 1, 120, 0, 0, 0, 1, 109, 0, 0, 0, 111, 0, 255, 255, 255 and 107 zeros do).
harmless(Make) ->
    Bytes = Make(),
    case is_harmless(Bytes) of
        true -> Bytes;
        false -> harmless(Make)
    end.

is_harmless(Bytes) -> binary:match(Bytes, [<<90, 0, 0>>, <<114, 0, 0>>]) =:= nomatch.

sound() -> encodings:standalone(encodings:value(pick:range(0, 4))).

%% A spoilt part somewhere in a sound message.
spoilt() ->
    Depth = pick:range(0, 2),
    Values = [encodings:value(Depth), {raw, (pick:one_of(faults()))()}, encodings:value(Depth)],
    encodings:standalone(pick:one_of([{tuple, Values}, {list, Values, nil}, lists:nth(2, Values), {map, [{{int, -7}, {tuple, Values}}]}])).

changed(Bytes) ->
    Change = pick:one_of([fun replace/2, fun replace/2, fun replace/2, fun insert/2, fun delete/2]),
    Changed = Change(pick:range(0, byte_size(Bytes) - 1), Bytes),
    case byte_size(Changed) > 0 andalso pick:chance(3) of
        true -> changed(Changed);
        false -> Changed
    end.

replace(At, Bytes) ->
    <<Front:At/binary, Byte, Rest/binary>> = Bytes,
    <<Front/binary, (pick:one_of([Byte + 1, Byte - 1, Byte bxor (1 bsl pick:range(0, 7)), pick:bits(8), pick:range(97, 120)])), Rest/binary>>.
insert(At, Bytes) -> <<Front:At/binary, Rest/binary>> = Bytes, <<Front/binary, (pick:bits(8)), Rest/binary>>.
delete(At, Bytes) -> <<Front:At/binary, _, Rest/binary>> = Bytes, <<Front/binary, Rest/binary>>.

cut_or_longer(Bytes) ->
    pick:one_of([binary:part(Bytes, 0, pick:range(0, byte_size(Bytes) - 1)), <<Bytes/binary, (pick:bytes(pick:range(1, 5)))/binary>>]).

node_atom() -> pick:one_of([<<119, 3, "a@b">>, <<100, 0, 3, "c@d">>, <<119, 13, "nonode@nohost">>]).
over(Bits) -> pick:range(1 bsl Bits, (1 bsl 32) - 1).

%% Parts that break a rule of document 01, of the node, or of both.
faults() -> numbers() ++ identifiers() ++ texts_and_tags() ++ equal_keys().

numbers() ->
    [fun() -> <<110, 1, (pick:range(2, 255)), 5>> end,
     fun() -> <<111, 2:32, (pick:range(2, 255)), 5, 0>> end,
     fun() -> <<70, (pick:bits(1)):1, 16#7ff:11, (pick:bits(52)):52>> end,
     fun() -> <<77, 2:32, (pick:one_of([0, 9, 255])), 1, 2>> end,
     fun() -> <<77, 0:32, (pick:range(1, 8))>> end].

identifiers() ->
    [fun() -> [88, node_atom(), <<(over(15)):32, 7:32, 1:32>>] end,
     fun() -> [88, node_atom(), <<7:32, (over(13)):32, 1:32>>] end,
     fun() -> [103, node_atom(), <<(over(15)):32, 7:32, 1>>] end,
     fun() -> [103, node_atom(), <<7:32, (over(13)):32, 1>>] end,
     fun() -> [103, node_atom(), <<7:32, 7:32, (pick:range(4, 255))>>] end,
     fun() -> [89, node_atom(), <<(over(28)):32, 1:32>>] end,
     fun() -> [102, node_atom(), <<(over(28)):32, (pick:range(0, 4))>>] end,
     fun() -> Count = pick:one_of([4, 5, 6]), [<<90, Count:16>>, node_atom(), <<1:32>>, pick:bytes(4 * Count)] end,
     fun() -> Count = pick:one_of([4, 5]), [<<114, Count:16>>, node_atom(), 1, [<<7:32>> || _ <- lists:seq(1, Count)]] end,
     fun() -> [<<114, 1:16>>, node_atom(), 1, <<(over(18)):32>>] end,
     fun() -> [101, node_atom(), <<(over(18)):32, 1>>] end,
     fun() -> [120, <<119, 13, "nonode@nohost">>, <<(over(28)):64, 0:32>>] end,
     fun() -> [<<90, 3:16, 119, 13, "nonode@nohost", 0:32, (over(18)):32, 1:32, 1:32>>] end,
     fun() -> [88, pick:one_of([<<97, 1>>, <<106>>, <<108, 0:32, 119, 1, 120>>, <<250>>]), <<7:32, 7:32, 1:32>>] end].

texts_and_tags() ->
    [fun() -> <<119, 2, (pick:range(192, 255)), (pick:bits(8))>> end,
     fun() -> <<119, 3, 16#ed, (pick:range(16#a0, 16#bf)), 16#80>> end,
     fun() -> [<<100, 256:16>>, pick:bytes(256)] end,
     fun() -> [<<118, 512:16>>, unicode:characters_to_binary(pick:some(256, fun() -> 233 end))] end,
     fun() -> <<82, 0>> end,
     fun() -> <<(pick:bits(8))>> end,
     fun() -> <<73, 0, (pick:bits(8))>> end,
     fun() -> [88, <<75, 0, 0, (pick:bits(8))>>, <<7:32, 7:32, 1:32>>] end,
     fun() -> <<107, 9:16, 1>> end,
     fun() -> [113, node_atom(), node_atom(), pick:one_of([<<98, 3:32>>, <<110, 1, 0, 3>>, <<106>>, <<97>>, <<70, 0:64>>])] end,
     fun() -> outside(float(pick:range(-9, 9)), [{minor_version, 0}]) end,
     fun() -> At = pick:bits(9), outside(fun() -> At end, []) end].

outside(Term, Options) -> <<131, Bytes/binary>> = term_to_binary(Term, Options), Bytes.

%% Maps with keys that mean the same: for document 01, or for the node alone.
equal_keys() ->
    Pair = fun(Key) -> [encodings:encode(Key), <<97, 1>>] end,
    Map = fun(A, B) -> [<<116, 2:32>>, Pair(A), Pair(B)] end,
    One = {{int, 1}, {int, 2}},
    Two = {{int, 3}, {int, 4}},
    Both = fun(Bits, Words) -> {tuple, [{float, Bits}, {ref, "a@b", Words, 1}]} end,
    [fun() -> Key = encodings:value(1), Map(Key, Key) end,
     fun() -> Map({float, 0}, {float, 1 bsl 63}) end,
     fun() -> Map({map, [One, Two]}, {map, [Two, One]}) end,
     fun() -> Map({ref, "a@b", [7], 1}, {ref, "a@b", [7, 0], 1}) end,
     fun() -> Map(Both(0, [7]), Both(1 bsl 63, [7, 0])) end,
     fun() -> Map({int, 1}, {float, 16#3ff0000000000000}) end].

limit() -> (pick:one_of([fun deep/0, fun deep/0, fun deep/0, fun many_rows/0, fun long/0, fun long_output/0, fun compressed/0]))().

deep() -> iolist_to_binary([131, nested(pick:range(60, 90))]).
nested(0) -> pick:one_of([<<97, 1>>, <<106>>, <<104, 0>>, <<107, 1:16, 1>>, <<88, 119, 3, "a@b", 1:32, 1:32, 1:32>>]);
nested(Level) ->
    Inner = nested(Level - 1),
    pick:one_of([[<<104, 1>>, Inner], [<<105, 1:32>>, Inner], [<<108, 1:32>>, Inner, 106], [<<108, 1:32, 106>>, Inner], [<<108, 0:32>>, Inner],
                 [<<116, 1:32, 97, 1>>, Inner], [<<116, 1:32>>, Inner, <<97, 1>>]]).

many_rows() ->
    Count = pick:range(8185, 8195),
    pick:one_of([<<131, 107, Count:16, 0:(8 * Count)>>, iolist_to_binary([<<131, 105, Count:32>>, lists:duplicate(Count, 106)])]).

%% Lists of so many integers 0..255: a 107, a 108, 108s of one element each, a 108 whose tail is a 107, and a 108 with the last for an improper tail.
lists_of(Count) ->
    Bytes = [Each * 7 rem 256 || Each <- lists:seq(1, Count)],
    Small = fun(Some) -> [[97, Byte] || Byte <- Some] end,
    {Front, Back} = lists:split(4000, Bytes),
    [iolist_to_binary([131, List]) || List <- [[<<107, Count:16>>, Bytes], [<<108, Count:32>>, Small(Bytes), 106],
                                               [[[<<108, 1:32>>, 97, Byte] || Byte <- Bytes], 106],
                                               [<<108, 4000:32>>, Small(Front), <<107, (Count - 4000):16>>, Back],
                                               [<<108, (Count - 1):32>>, Small(Bytes)]]].

long() -> Size = pick:range(65525, 65535), <<131, 109, Size:32, 0:(8 * Size)>>.

%% Latin-1 texts that are twice as long in UTF-8.
long_output() ->
    Count = pick:range(100, 200),
    iolist_to_binary([<<131, 104, Count>>, lists:duplicate(Count, <<100, 255:16, (binary:copy(<<233>>, 255))/binary>>)]).

compressed() -> term_to_binary(lists:duplicate(pick:range(100, 200), pick:range(0, 300)), [compressed]).
