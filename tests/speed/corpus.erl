%% Makes the messages that are measured, the same in every run: small messages as a picking floor sends them, for each kind of term one
%% message of any size up to 65,536 bytes and 8,192 rows, and the keys that are the dearest to tell apart or to put in order, in a message of
%% 4 KB and in the largest. A file holds messages, each after its length in 4 bytes.
-module(corpus).
-export([make/1]).

-define(NODE_NAME, <<119, 10, "unit@floor">>).
-define(BYTES_MOST, 65536).
-define(ROWS_MOST, 8192).
-define(EACH, 256).
%% What the hash of a key multiplies by in the first pass, and in the others and the later rounds (crate term_hash).
-define(FIRST_FACTOR, 2554875531).
-define(FACTOR(I), ((3266489908 + I * 2135587862) band 16#ffffffff)).

%% Writes all files; prints their names, the sizes of a kind upward.
make(Dir) ->
    [write(Dir, ["small-", Name], [message(F, I) || I <- lists:seq(1, ?EACH)]) || {Name, F} <- small()],
    [write(Dir, io_lib:format("size-~s-~b", [Name, KB]), [sized(Kind, 1024 * KB)]) || {Name, Kind} <- kinds(), KB <- sizes(Kind)],
    [write(Dir, io_lib:format("worst-~s-~b", [Name, KB]), [sized(Kind, 1024 * KB)]) || {Name, Kind} <- worst(), KB <- [4, 64]],
    [write(Dir, ["packet-", Name], packets(N, Flag)) || {Name, N, Flag} <- headers()],
    write(Dir, "packet-4-fragments", lists:append([fragments(I) || I <- lists:seq(1, ?EACH div 4)])),
    ok.

write(Dir, Name, Messages) ->
    ok = file:write_file(filename:join(Dir, Name), [[<<(byte_size(M)):32>>, M] || M <- Messages]),
    io:format("~s~n", [Name]).

message(F, I) -> term_to_binary(F(I), [{minor_version, 2}]).

%% ---- small messages

small() ->
    [{"acks", fun ack/1}, {"picks", fun pick/1}, {"maps", fun order/1}, {"binaries", fun label/1}, {"lists", fun route/1},
     {"strings", fun say/1}, {"calls", fun call/1}, {"mixed", fun mixed/1}].

ack(I) -> {ack, I, ok}.
pick(I) -> {pick, 100000 + I, {I rem 40, I rem 12, I rem 6}, sku(I), 1 + I rem 9}.
order(I) ->
    #{order => 100000 + I, sku => sku(I), quantity => 1 + I rem 9, zone => zone(I), done => I rem 2 =:= 0, weight => I / 7}.
label(I) -> {label, I, << <<((I * K) rem 256)>> || K <- lists:seq(1, 120) >>, sku(I)}.
route(I) -> {route, I, [{sku(I + K), 1 + K rem 5, {at, K rem 40, 300 + K}} || K <- lists:seq(1, 10)]}.
say(I) -> {say, zone(I), "Pick " ++ integer_to_list(1 + I rem 9) ++ " of the red boxes on the left"}.
call(I) -> {'$gen_call', {pid(I), [alias | reference(I)]}, {where, 100000 + I}}.
mixed(I) ->
    All = [fun ack/1, fun pick/1, fun order/1, fun label/1, fun route/1, fun say/1, fun call/1],
    (lists:nth(1 + I rem length(All), All))(I).

sku(I) -> iolist_to_binary(io_lib:format("SKU-~6..0b", [I * 7919 rem 1000000])).
zone(I) -> lists:nth(1 + I rem 3, [north, south, cold]).
pid(I) -> binary_to_term(<<131, (pid_bytes(I))/binary>>).
reference(I) -> binary_to_term(<<131, (reference_bytes(I))/binary>>).

%% ---- kinds of one message: a run of elements {run, tag, width of the number field, element I, what ends it, rows of an element}, a map of
%% keys {map, key I of N, rows of a key}, bytes {filled, tag, fields after the length, byte} or {string, tag}, a key in maps
%% {in_maps, how many, pairs of each, the key of so many bytes}, or two maps as keys {two_maps, the order of the second}, or a
%% key in maps behind integers in its slots {slots_filled, an element's bytes, what it says}

kinds() ->
    [{"small-integers", list(1, fun(I) -> <<97, I>> end)},
     {"integers", list(1, fun(I) -> <<98, (I * 7919):32>> end)},
     {"long-integers", list(1, fun(I) -> <<110, 8, 0, (I + 1):56, 200>> end)},
     {"bignums", list(1, fun(I) -> <<110, 16, (I rem 2), (I + 1):120, 200>> end)},
     {"one-bignum", {filled, <<111>>, <<0>>, 200}},
     {"floats", list(1, fun(I) -> <<70, (I / 7)/float>> end)},
     {"atoms", list(1, fun(I) -> atom_bytes(I rem 200) end)},
     {"atoms-utf8", list(1, fun(I) -> utf8_bytes(I rem 200) end)},
     {"tuples", list(3, fun(I) -> <<104, 2, 97, I, 98, (I * 31):32>> end)},
     {"string", {string, 107}},
     {"binary", {filled, <<109>>, <<>>, 65}},
     {"binaries", list(1, fun(I) -> <<109, 20:32, I:160>> end)},
     {"bitstrings", list(1, fun(I) -> <<77, 20:32, 3, I:152, 160>> end)},
     {"pids", list(2, fun pid_bytes/1)},
     {"ports", list(2, fun(I) -> <<89, ?NODE_NAME/binary, I:32, 7:32>> end)},
     {"references", list(2, fun reference_bytes/1)},
     {"exports", list(4, fun(I) -> <<113, (atom_bytes(I rem 200))/binary, (atom_bytes(I rem 7))/binary, 97, (I rem 9)>> end)},
     {"small-maps", list(9, fun small_map/1)},
     {"maps-of-8", list(17, fun(I) -> map_of(8, I) end)},
     {"maps-of-32", list(65, fun(I) -> map_of(32, I) end)},
     {"64-deep", list(63, fun(I) -> [binary:copy(<<104, 1>>, 62), <<97, I>>] end)},
     {"joined-tails", {run, <<>>, 0, fun(I) -> <<108, 1:32, 98, (I * 31):32>> end, <<106>>, 1}},
     {"keys-upward", map(1, fun(_, I) -> <<98, I:32>> end)},
     {"keys-downward", map(1, fun(N, I) -> <<98, (N - I):32>> end)},
     {"keys-mixed", map(1, fun(_, I) -> <<98, (mixed_up(I)):32>> end)},
     {"keys-apart", map(1, fun(_, I) -> <<98, (I * 7919):32>> end)},
     {"keys-binary", map(1, fun(_, I) -> <<109, 8:32, I:64>> end)},
     {"keys-atom", map(1, fun(_, I) -> atom_bytes(I) end)},
     {"keys-atom-mixed", map(1, fun(_, I) -> atom_bytes(mixed_up(I)) end)},
     {"keys-creation", map(2, fun(_, I) -> <<88, 119, 1, "n", 1:32, 1:32, (mixed_up(I)):32>> end)}].

%% Keys of one hash, keys that differ late or in their middle, keys that are long or deep, and keys that are maps.
worst() ->
    [{"halves-of-one-sum", map(1, fun(_, I) -> <<110, 8, 0, (mixed_up(I)):32/little, (100000 - mixed_up(I)):32/little>> end)},
     {"one-hash", map(1, fun(_, I) -> <<110, 8, 0, (-?FIRST_FACTOR * (I + 1)):32/little, (I + 1):32/little>> end)},
     {"one-sum-for-odd-factors", map(1, fun(_, I) -> one_sum(I) end)},
     {"one-half-of-slots", map(1, fun(_, I) -> crowded((I + 1) bsl 40) end)},
     {"strings-late", map(37, fun(_, I) -> <<107, 36:16, (binary:copy(<<"a">>, 32))/binary, (mixed_up(I)):32>> end)},
     {"tuples-late", map(18, fun(_, I) -> [104, 17, binary:copy(<<97, 1>>, 16), <<98, (mixed_up(I)):32>>] end)},
     {"binaries-middle", map(1, fun(_, I) -> middle(33, I) end)},
     {"long-binaries-middle", map(1, fun(_, I) -> middle(524, I) end)},
     {"maps-of-one-size", map(5, fun(_, I) -> [<<116, 2:32, 97, 1, 97, 2>>, <<98, (mixed_up(I)):32, 106>>] end)},
     {"maps-values-swapped", map(13, fun(_, I) -> swapped_map(I) end)},
     {"maps-late", map(13, fun(_, I) -> [binary:copy(<<116, 1:32>>, 6), <<98, I:32>>, binary:copy(<<106>>, 6)] end)},
     {"maps-turned", map(89, fun(_, I) -> turned_map(I) end)},
     {"two-maps-turned", {two_maps, fun lists:reverse/1}},
     {"two-maps-mixed", {two_maps, fun mixed_list/1}},
     {"key-63-deep", {in_maps, 63, 1, fun long_binary/1}},
     {"key-63-deep-of-two", {in_maps, 63, 2, fun long_binary/1}},
     {"binaries-62-deep", {in_maps, 62, 2, fun(N) -> tuple_of(N, binary(1000)) end}},
     {"atoms-62-deep", {in_maps, 62, 2, fun(N) -> tuple_of(N, long_atom()) end}},
     {"integers-62-deep", {in_maps, 62, 2, fun(N) -> tuple_of(min(N, 2 * 1900), [97, 1]) end}},
     {"binaries-deep-slots-filled", {slots_filled, binary(1000), [7, 0, 0 | lists:duplicate(1000, 65)]}},
     {"atoms-deep-slots-filled", {slots_filled, long_atom(), [3, 0, 0 | lists:append(lists:duplicate(125, [195, 169]))]}}].

list(Rows, Element) -> {run, <<108>>, 4, fun(I) -> iolist_to_binary(Element(I)) end, <<106>>, Rows}.
map(Rows, Key) -> {map, fun(N, I) -> iolist_to_binary(Key(N, I)) end, Rows}.

%% The first integer from N on, of one row in a standalone map, whose first eight rounds all point to the lower half of the slots.
crowded(N) ->
    case crowded(N, pass(0, N), 0, 0) of
        true -> <<110, 8, 0, N:64/little>>;
        false -> crowded(N + 1)
    end.
crowded(_, _, _, 8) -> true;
crowded(N, A, B, Round) ->
    {A1, B1} = case Round of
        1 -> {A, pass(1, N)};
        4 -> {0, pass(2, N)};
        5 -> {B, pass(3, N)};
        _ -> {A, B}
    end,
    round_hash(A1, B1, Round) < 16#80000000 andalso crowded(N, A1, B1, Round + 1).

round_hash(A, _, 0) -> A;
round_hash(A, B, Round) -> mix(Round, Round, mix(Round, Round, mix(Round, B, A))).

pass(Pass, N) -> pass(Pass, 1, 0, [1, N, 0], 1).
%% The hash of a key of so many rows, over what its first row says and its others, where the first key of its map has the row First; in so many
%% maps of one pair, each the key of the next, which count down to four levels.
pass(Pass, First, Maps, Numbers, Rows) -> mix(Pass, Rows + 2 * Maps, rows(Pass, mix(Pass, First, 0), Maps, 4, Numbers)).
rows(Pass, H, 0, _, Numbers) -> mixed(Pass, H, Numbers);
rows(Pass, H, _, 0, _) -> mixed(Pass, H, [41, 0, 0]);
rows(Pass, H, Maps, Levels, Numbers) ->
    Pair = mixed(Pass, rows(Pass, 0, Maps - 1, Levels - 1, Numbers), [5, 0, 0]),
    (mixed(Pass, H, [41, 0, 0]) + (Pair * Pair bsr 16)) band 16#ffffffff.
mixed(Pass, H, Numbers) -> lists:foldl(fun(X, Sum) -> mix(Pass, X, Sum) end, H, Numbers).
mix(0, X, H) -> ((H + (X bsr 32)) * ?FIRST_FACTOR + X) band 16#ffffffff;
mix(I, X, H) -> ((((H + (X bsr 32)) band 16#ffffffff) * ?FACTOR(I) bsr 16) + X) band 16#ffffffff.

%% The slots of the first four rounds of a key.
first_slots(First, Maps, Numbers, Rows, Slots) ->
    A = pass(0, First, Maps, Numbers, Rows),
    B = pass(1, First, Maps, Numbers, Rows),
    lists:append([[S, (S + 1) rem Slots] || R <- lists:seq(0, 3), S <- [(round_hash(A, B, R) bsr 16) * Slots div 65536]]).

%% N integers from I on, among them one for each slot, to which its first round points in a map whose first key has row 2.
in_slots([], I, _, N) -> lists:seq(I, I + N - 1);
in_slots(Wanted, I, Slots, N) ->
    Slot = (pass(0, 2, 0, [1, I, 0], 1) bsr 16) * Slots div 65536,
    case lists:member(Slot, Wanted) of
        true -> [I | in_slots(lists:delete(Slot, Wanted), I + 1, Slots, N - 1)];
        false -> in_slots(Wanted, I + 1, Slots, N)
    end.

%% Binaries of 40 bytes with one sum of byte I times the factor to the I, modulo 2^32, whichever odd number the factor is: they differ by
%% multiples of (x^2 - 1) * (x^4 - 1)^6 * (x^8 - 1).
one_sum(I) ->
    Step = lists:foldl(fun(N, P) -> times_less(N, P) end, [1], [2, 4, 4, 4, 4, 4, 4, 8]),
    Digits = [I div D rem 5 - 2 || D <- [1, 5, 25, 125, 625, 3125]],
    Sums = [[lists:duplicate(At, 0) ++ [D * C || C <- Step] ++ lists:duplicate(5 - At, 0)] || {At, D} <- lists:zip(lists:seq(0, 5), Digits)],
    [<<109, 40:32>>, lists:foldl(fun([L], Acc) -> lists:zipwith(fun(X, Y) -> X + Y end, L, Acc) end, lists:duplicate(40, 128), Sums)].
%% A polynomial times x^N - 1.
times_less(N, P) -> lists:zipwith(fun(X, Y) -> X - Y end, lists:duplicate(N, 0) ++ P, P ++ lists:duplicate(N, 0)).

%% N bytes, a number and N bytes.
middle(N, I) -> [<<109, (2 * N + 4):32>>, binary:copy(<<"a">>, N), <<(mixed_up(I)):32>>, binary:copy(<<"b">>, N)].

binary(N) -> [<<109, N:32>>, binary:copy(<<65>>, N)].
long_binary(Bytes) -> binary(Bytes - 5).
long_atom() -> [<<119, 250>>, binary:copy(<<16#E9/utf8>>, 125)].
%% A tuple of as many of the element as there is room for.
tuple_of(Bytes, Element) ->
    N = (Bytes - 5) div iolist_size(Element),
    [<<105, N:32>>, lists:duplicate(N, Element)].

%% Six pairs whose values are the same six in another order, one of 720.
swapped_map(I) -> [<<116, 6:32>>, [[97, K, 97, V] || {K, V} <- lists:zip(lists:seq(1, 6), permuted(I rem 720, lists:seq(101, 106)))]].

permuted(_, []) -> [];
permuted(I, L) ->
    V = lists:nth(1 + I rem length(L), L),
    [V | permuted(I div length(L), lists:delete(V, L))].

mixed_list(L) -> [E || {_, E} <- lists:sort(lists:zip([mixed_up(I) || I <- lists:seq(1, length(L))], L))].

%% 44 pairs, of which the last has another value in each map, and the others begin with another.
turned_map(I) -> [<<116, 44:32>>, [<<97, ((I * 17 + K) rem 43), 106>> || K <- lists:seq(1, 43)], <<97, 43, 98, I:32>>].

%% Each number below 8,191, which is a prime, from another one.
mixed_up(I) -> I * 3571 rem 8191.

pid_bytes(I) -> <<88, ?NODE_NAME/binary, (I rem 32768):32, (I rem 100):32, 7:32>>.
reference_bytes(I) -> <<90, 3:16, ?NODE_NAME/binary, 7:32, (I rem 262144):32, 11:32, 12:32>>.
atom_bytes(I) -> iolist_to_binary([119, 8, io_lib:format("atom~4..0b", [I])]).
%% characters of two, three and four bytes, then digits
utf8_bytes(I) -> iolist_to_binary([119, 13, <<16#436/utf8, 16#4E2D/utf8, 16#1F600/utf8>>, io_lib:format("~4..0b", [I])]).
small_map(I) -> [<<116, 4:32>>, [[atom_bytes(K), <<98, (I * K):32>>] || K <- [1, 2, 3, 4]]].
map_of(N, I) -> [<<116, N:32>>, [[atom_bytes(mixed_up(I * N + K)), <<98, (I * K):32>>] || K <- lists:seq(1, N)]].

%% The largest message of the kind with at most so many bytes and at most 8,192 rows.
sized({filled, Tag, Fixed, Byte}, Bytes) ->
    N = Bytes - 5 - byte_size(Tag) - byte_size(Fixed),
    <<131, Tag/binary, N:32, Fixed/binary, (binary:copy(<<Byte>>, N))/binary>>;
sized({string, Tag}, Bytes) ->
    N = min(Bytes - 4, ?ROWS_MOST - 1),
    <<131, Tag, N:16, << <<(I rem 256)>> || I <- lists:seq(1, N) >>/binary>>;
sized({map, Key, Rows}, Bytes) ->
    Size = byte_size(Key(0, 0)) + 2,
    N = min((Bytes - 6) div Size, (?ROWS_MOST - 1) div (Rows + 1)),
    iolist_to_binary([131, 116, <<N:32>>, [[Key(N, I), 97, I rem 256] || I <- lists:seq(1, N)]]);
%% A key in so many maps, each the key of the next, of one pair or with another pair before it.
sized({in_maps, Maps, Pairs, Key}, Bytes) ->
    Before = binary:copy(<<116, Pairs:32, (binary:copy(<<97, 1, 106>>, Pairs - 1))/binary>>, Maps),
    iolist_to_binary([131, Before, Key(Bytes - 1 - byte_size(Before) - Maps), binary:copy(<<106>>, Maps)]);
%% A list: a map of integers, then a tuple of the element in 61 maps of one pair, each the key of the next. The integers stand in the eight slots where
%% the key of each of these is looked for first, so that its later passes are made. Of a tuple's element there are the bytes and what its row says.
sized({slots_filled, Element, Numbers}, Bytes) ->
    Maps = 61,
    Slots = if Bytes =< 4096 -> 2048; true -> 8192 end,
    Row = 2 + 2 * 8 * Maps,
    N = (Bytes - 12 - 6 * 8 * Maps - 6 * Maps - 11) div iolist_size(Element),
    All = [16 * N + 4, 0, 0 | lists:append(lists:duplicate(N, Numbers))],
    Wanted = lists:append([first_slots(Row + Maps - I, I, All, N + 1, Slots) || I <- lists:seq(0, Maps - 1)]),
    Integers = in_slots(lists:usort(Wanted), 0, Slots, 8 * Maps),
    iolist_to_binary([131, <<108, 2:32>>, 116, <<(length(Integers)):32>>, [<<98, I:32, 106>> || I <- Integers],
                      binary:copy(<<116, 1:32>>, Maps), tuple_of(5 + N * iolist_size(Element), Element), binary:copy(<<106>>, Maps), 106]);
%% The second has the pairs of the first, in another order, but for the value of one.
sized({two_maps, Order}, Bytes) ->
    N = min((Bytes - 18) div 14, (?ROWS_MOST - 5) div 4),
    Pair = fun(I, Value) -> <<98, I:32, 97, Value>> end,
    Second = [Pair(1, 0) | [Pair(I, 1) || I <- lists:seq(2, N)]],
    iolist_to_binary([<<131, 116, 2:32, 116, N:32>>, [Pair(I, 1) || I <- lists:seq(1, N)], 106, <<116, N:32>>, Order(Second), 106]);
sized({run, Tag, Width, Element, Last, Rows}, Bytes) ->
    Room = Bytes - 1 - byte_size(Tag) - Width - byte_size(Last),
    N = min(Room div byte_size(Element(1)), (?ROWS_MOST - 1) div Rows),
    iolist_to_binary([131, Tag, <<N:(8 * Width)>>, [Element(I) || I <- lists:seq(1, N)], Last]).

%% The sizes in KB up to the first at which the rows are full (the message is then smaller than its name says).
sizes(Kind) ->
    Most = byte_size(sized(Kind, ?BYTES_MOST)),
    [KB || KB <- [1, 2, 4, 8, 16, 32, 64], KB =:= 1 orelse 600 * KB < Most].

%% ---- packets: a header of N references, all new or, after a first packet, all cached; a control message and a message

headers() -> [{"no-references", 0, cached}, {"3-cached", 3, cached}, {"3-new", 3, new}, {"255-cached", 255, cached}].

packets(0, _) -> [packet(0, new, I, ?NODE_NAME) || I <- lists:seq(1, ?EACH)];
packets(N, new) -> [packet(N, new, I, <<82, 0>>) || I <- lists:seq(1, ?EACH)];
packets(N, cached) -> [packet(N, case I of 1 -> new; _ -> cached end, I, <<82, 0>>) || I <- lists:seq(1, ?EACH)].

packet(N, Flag, I, Node) -> iolist_to_binary([131, 68, header(N, Flag), payload(I, Node)]).

header(N, Flag) -> [N, flags(N, Flag), [entry(Flag, K) || K <- lists:seq(1, N)]].

payload(I, Node) ->
    Control = [104, 4, 97, 6, 88, Node, <<I:32, 0:32, 7:32>>, 119, 0, 119, 6, "picker"],
    Message = [104, 3, 119, 4, "pick", 97, I rem 256, 109, <<10:32>>, sku(I)],
    iolist_to_binary([Control, Message]).

%% One payload in four fragments, whose ids count down to 1; the first has the header, of three references.
fragments(I) ->
    Payload = payload(I, <<82, 0>>),
    Part = byte_size(Payload) div 4,
    <<A:Part/binary, B:Part/binary, C:Part/binary, D/binary>> = Payload,
    Flag = case I of 1 -> new; _ -> cached end,
    [iolist_to_binary([131, 69, <<I:64, 4:64>>, header(3, Flag), A]) |
     [iolist_to_binary([131, 70, <<I:64, Id:64>>, Bytes]) || {Id, Bytes} <- [{3, B}, {2, C}, {1, D}]]].

flags(0, _) -> [];
flags(N, Flag) ->
    Half = case Flag of new -> 8; cached -> 0 end,
    Halves = lists:duplicate(N, Half) ++ lists:duplicate(2 - N rem 2, 0),
    pairs(Halves).

pairs([Low, High | Rest]) -> [High * 16 + Low | pairs(Rest)];
pairs([]) -> [].

entry(new, K) -> [K, 8, io_lib:format("atom~4..0b", [K])];
entry(cached, K) -> K.
