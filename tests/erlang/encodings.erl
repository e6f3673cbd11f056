%% A generator of our own: random values, and every encoding of a value that document 01 reads, chosen at random.
%%
%% A value: {int, N}, {float, Bits}, {atom, Text}, {tuple, Values}, {list, Values, Tail} with Tail nil or a value that is no list,
%% {bits, BitString}, {map, Pairs}, {pid, Node, Id, Serial, Creation}, {port, Node, Id, Creation}, {ref, Node, Words, Creation},
%% {export, Module, Function, Arity}; {raw, Bytes} stands for bytes that need not be a term.
-module(encodings).
-export([value/1, identifier/0, wide_identifier/0, standalone/1, encode/1]).

value(Depth) when Depth =< 0 -> leaf();
value(Depth) -> pick:weighted([{3, fun leaf/0}, {2, fun() -> inner(Depth - 1) end}]).

leaf() ->
    pick:weighted([{4, fun integer/0}, {2, fun float/0}, {3, fun() -> {atom, text()} end}, {2, fun bit_string/0}, {1, fun() -> {list, [], nil} end},
                   {1, fun string/0}, {1, fun pid/0}, {1, fun port/0}, {1, fun reference/0}, {1, fun wide_identifier/0}, {1, fun export/0}]).

inner(Depth) ->
    pick:weighted([{2, fun() -> {tuple, values(Depth, length_for(Depth))} end},
                   {2, fun() -> {list, values(Depth, length_for(Depth)), nil} end},
                   {1, fun() -> {list, values(Depth, pick:range(1, 4)), no_list(Depth)} end},
                   {2, fun() -> {map, distinct(pairs(Depth))} end}]).

values(Depth, Count) -> pick:some(Count, fun() -> value(Depth) end).
length_for(0) -> pick:weighted([{30, fun() -> pick:range(0, 6) end}, {1, fun() -> pick:range(250, 260) end}]);
length_for(_) -> pick:range(0, 5).

pairs(0) -> pick:weighted([{15, fun() -> pairs(0, pick:range(0, 5)) end}, {1, fun many_pairs/0}]);
pairs(Depth) -> pairs(Depth, pick:range(0, 5)).
pairs(Depth, Count) -> [{value(Depth - 1), value(Depth - 1)} || _ <- lists:seq(1, Count)].

%% Over 32 pairs the node keeps a map by a hash, which in OTP 25 reads past a reference of one word, so that it is not found: no key here is one.
many_pairs() -> [Pair || Pair = {Key, _} <- pairs(0, pick:range(33, 48)), not is_one_word(Key)].

is_one_word({ref, _, [_], _}) -> true;
is_one_word(_) -> false.

no_list(Depth) ->
    case value(Depth) of
        {list, _, _} -> integer();
        Value -> Value
    end.

distinct(Pairs) -> [Pair || {Number, Pair = {Key, _}} <- lists:enumerate(Pairs), not lists:keymember(Key, 1, lists:sublist(Pairs, Number - 1))].

integer() -> {int, pick:one_of([1, -1]) * pick:bits(pick:width(2100)) + pick:one_of([0, 0, 1, -1])}.

float() ->
    case pick:one_of([0, 1 bsl 63, pick:bits(64), pick:bits(52), 16#3ff0000000000000]) of
        Bits when (Bits bsr 52) band 16#7ff =:= 16#7ff -> {float, Bits bxor (1 bsl 52)};
        Bits -> {float, Bits}
    end.

text() ->
    pick:text(pick:weighted([{8, fun() -> pick:range(0, 12) end}, {1, fun() -> pick:range(60, 66) end}, {1, fun() -> pick:range(250, 255) end}])).
bit_string() -> Size = pick:one_of([0, 8, 16, pick:range(0, 80), pick:range(500, 600)]), {bits, <<(pick:bits(Size + 1)):Size>>}.
string() -> {list, [{int, Byte} || <<Byte>> <= pick:bytes(pick:range(1, 30))], nil}.

node_name() -> pick:one_of(["a@b", "node@host.example", "nonode@nohost", pick:text(pick:range(0, 8))]).
identifier() -> pick:weighted([{1, fun pid/0}, {1, fun port/0}, {1, fun reference/0}]).
creation() -> pick:one_of([0, pick:range(0, 3), pick:range(0, 3), pick:bits(32)]).
pid() -> {pid, node_name(), pick:bits(pick:range(1, 15)), pick:bits(pick:range(1, 13)), creation()}.
port() -> {port, node_name(), pick:bits(pick:one_of([8, 28, 28, 29, 64])), creation()}.
reference() ->
    More = pick:some(pick:range(0, 2), fun() -> pick:one_of([0, pick:bits(32)]) end),
    {ref, node_name(), [pick:bits(pick:one_of([18, 18, 19, 32])) | More], creation()}.
%% Pids with a number at an end of its range, or of any size; references of up to five words. Most of them need V4_NC.
wide_identifier() ->
    pick:one_of([{pid, node_name(), wide_number(15), wide_number(13), creation()},
                 {ref, node_name(), pick:some(pick:range(1, 5), fun word/0), creation()}]).
wide_number(Bits) -> pick:one_of([pick:bits(Bits), (1 bsl Bits) - 1, 1 bsl Bits, (1 bsl 28) - 1, 1 bsl 28, (1 bsl 32) - 1, pick:bits(32)]).
word() -> pick:one_of([0, (1 bsl 18) - 1, 1 bsl 18, (1 bsl 32) - 1, pick:bits(32)]).
export() -> {export, text(), text(), pick:range(0, 255)}.

standalone(Value) -> iolist_to_binary([131, encode(Value)]).

%% One encoding of the value; once in a while behind a list of length 0.
encode(Value) ->
    case pick:chance(15) of
        true -> [<<108, 0:32>>, encode(Value)];
        false -> plain(Value)
    end.

plain({raw, Bytes}) -> Bytes;
plain({int, N}) -> plain_integer(N);
plain({float, Bits}) -> <<70, Bits:64>>;
plain({atom, Text}) -> atom(Text);
plain({tuple, Values}) -> [counted([{104, 8}, {105, 32}], length(Values)), [encode(Value) || Value <- Values]];
plain({list, Values, Tail}) -> list(Values, Tail);
plain({bits, Bits}) -> plain_bits(Bits, bit_size(Bits) rem 8);
plain({map, Pairs}) -> [<<116, (length(Pairs)):32>>, [[encode(Key), encode(Value)] || {Key, Value} <- Pairs]];
plain({pid, Node, Id, Serial, Creation}) -> plain_pid(Node, Id, Serial, Creation);
plain({port, Node, Id, Creation}) -> plain_port(Node, Id, Creation);
plain({ref, Node, Words, Creation}) -> plain_reference(Node, Words, Creation);
plain({export, Module, Function, Arity}) -> [113, atom(Module), atom(Function), 97, Arity].

%% A tag and a count, in one of the widths that hold the count.
counted(Layouts, Count) ->
    {Tag, Width} = pick:one_of([Layout || Layout = {_, Width} <- Layouts, Count < 1 bsl Width]),
    <<Tag, Count:Width>>.

plain_integer(N) ->
    Digits = <<(least_first(abs(N)))/binary, 0:(8 * pick:one_of([0, 0, 1, 3, pick:range(0, 250)]))>>,
    Sign = case N of 0 -> pick:range(0, 1); _ -> sign(N) end,
    Big = [counted([{110, 8}, {111, 32}], byte_size(Digits)), Sign, Digits],
    pick:one_of([<<97, N>> || N >= 0, N < 256] ++ [<<98, N:32>> || N >= -(1 bsl 31), N < 1 bsl 31] ++ [Big]).

sign(N) when N < 0 -> 1;
sign(_) -> 0.
least_first(0) -> pick:one_of([<<>>, <<0>>]);
least_first(N) -> binary:encode_unsigned(N, little).

atom(Text) ->
    Utf8 = unicode:characters_to_binary(Text),
    Latin1 = [[counted([{115, 8}, {100, 16}], length(Text)), Text] || lists:all(fun(C) -> C < 256 end, Text)],
    pick:one_of([[counted([{119, 8}, {118, 16}], byte_size(Utf8)), Utf8] | Latin1]).

list([], nil) -> pick:one_of([<<106>>, <<107, 0, 0>>]);
list([], Tail) -> encode(Tail);
list(Values, Tail) ->
    Characters = [N || {int, N} <- Values, N >= 0, N < 256],
    case Tail =:= nil andalso length(Characters) =:= length(Values) andalso pick:chance(2) of
        true -> [<<107, (length(Values)):16>>, Characters];
        false -> joined(Values, Tail)
    end.

%% Some elements; the rest is the tail, a list joined on.
joined(Values, Tail) ->
    Count = pick:one_of([length(Values), pick:range(0, length(Values))]),
    {Front, Rest} = lists:split(Count, Values),
    [<<108, Count:32>>, [encode(Value) || Value <- Front], list(Rest, Tail)].

plain_bits(<<>>, 0) -> pick:one_of([<<109, 0:32>>, <<77, 0:32, 0>>]);
plain_bits(Bits, 0) -> pick:one_of([<<109, (byte_size(Bits)):32, Bits/binary>>, <<77, (byte_size(Bits)):32, 8, Bits/binary>>]);
plain_bits(Bits, Rest) -> <<77, (byte_size(Bits)):32, Rest, Bits/bitstring, (pick:bits(8 - Rest)):(8 - Rest)>>.

%% The layout with a Creation of four bytes, or the old one where it fits.
layout(New, Old, Creation) -> pick:one_of([{New, 32}] ++ [{Old, 8} || Creation < 4]).

plain_pid(Node, Id, Serial, Creation) ->
    {Tag, Width} = case Id < 1 bsl 15 andalso Serial < 1 bsl 13 of true -> layout(88, 103, Creation); false -> {88, 32} end,
    [Tag, atom(Node), <<Id:32, Serial:32, Creation:Width>>].

plain_port(Node, Id, Creation) ->
    {Tag, Width} = layout(89, 102, Creation),
    pick:one_of([[120, atom(Node), <<Id:64, Creation:32>>]] ++ [[Tag, atom(Node), <<Id:32, Creation:Width>>] || Id < 1 bsl 28]).

plain_reference(Node, Words = [First | _], Creation) ->
    {Tag, Width} = case First < 1 bsl 18 andalso length(Words) =< 3 of true -> layout(90, 114, Creation); false -> {90, 32} end,
    Counted = [Tag, <<(length(Words)):16>>, atom(Node), <<Creation:Width>>, [<<Word:32>> || Word <- Words]],
    Single = [[101, atom(Node), <<First:32, Creation>>] || length(Words) =:= 1, First < 1 bsl 18, Creation < 4],
    pick:one_of([Counted | Single]).
