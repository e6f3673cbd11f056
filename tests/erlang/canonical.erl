%% Canonical bytes as a value (see encodings), a value as canonical bytes, and values made alike where the node sees no difference.
-module(canonical).
-export([value/1, of_term/1, bytes/1, parts/2, why_same/2, find/2, all/2, after_atom/1]).

%% The value of one canonical standalone term.
value(<<131, Bytes/binary>>) -> {Value, <<>>} = term(Bytes), Value.

%% The value of a term of the node.
of_term(Term) -> value(term_to_binary(Term, [{minor_version, 2}])).

term(<<97, N, Rest/binary>>) -> {{int, N}, Rest};
term(<<98, N:32/signed, Rest/binary>>) -> {{int, N}, Rest};
term(<<110, Size, Sign, Rest/binary>>) -> big(Size, Sign, Rest);
term(<<111, Size:32, Sign, Rest/binary>>) -> big(Size, Sign, Rest);
term(<<70, Bits:64, Rest/binary>>) -> {{float, Bits}, Rest};
term(<<104, Arity, Rest/binary>>) -> tuple(Arity, Rest);
term(<<105, Arity:32, Rest/binary>>) -> tuple(Arity, Rest);
term(<<106, Rest/binary>>) -> {{list, [], nil}, Rest};
term(<<107, Size:16, Bytes:Size/binary, Rest/binary>>) -> {{list, [{int, Byte} || <<Byte>> <= Bytes], nil}, Rest};
term(<<108, Size:32, Rest/binary>>) -> list(Size, Rest);
term(<<109, Size:32, Bytes:Size/binary, Rest/binary>>) -> {{bits, Bytes}, Rest};
term(<<77, Size:32, Last, Rest/binary>>) -> bits(8 * (Size - 1) + Last, 8 - Last, Rest);
term(<<116, Count:32, Rest/binary>>) -> map(Count, Rest);
term(<<113, Rest/binary>>) -> export(Rest);
term(<<90, Count:16, Rest/binary>>) -> reference(Count, Rest);
term(<<Tag, _/binary>> = Bytes) when Tag =:= 118; Tag =:= 119 -> {Text, Rest} = text(Bytes), {{atom, Text}, Rest};
term(<<Tag, Rest/binary>>) -> {Node, Fields} = text(Rest), identifier(Tag, Node, Fields).

identifier(88, Node, <<Id:32, Serial:32, Creation:32, Rest/binary>>) -> {{pid, Node, Id, Serial, Creation}, Rest};
identifier(89, Node, <<Id:32, Creation:32, Rest/binary>>) -> {{port, Node, Id, Creation}, Rest};
identifier(120, Node, <<Id:64, Creation:32, Rest/binary>>) -> {{port, Node, Id, Creation}, Rest}.

big(Size, Sign, Bytes) ->
    <<Digits:Size/binary, Rest/binary>> = Bytes,
    {{int, (1 - 2 * Sign) * binary:decode_unsigned(Digits, little)}, Rest}.

text(<<119, Size, Text:Size/binary, Rest/binary>>) -> {unicode:characters_to_list(Text), Rest};
text(<<118, Size:16, Text:Size/binary, Rest/binary>>) -> {unicode:characters_to_list(Text), Rest}.

terms(Count, Bytes) -> lists:mapfoldl(fun(_, Rest) -> term(Rest) end, Bytes, lists:seq(1, Count)).

tuple(Arity, Bytes) -> {Values, Rest} = terms(Arity, Bytes), {{tuple, Values}, Rest}.

list(Size, Bytes) ->
    {Values, Rest} = terms(Size, Bytes),
    case term(Rest) of
        {{list, [], nil}, After} -> {{list, Values, nil}, After};
        {Tail, After} -> {{list, Values, Tail}, After}
    end.

bits(Size, Spare, Bytes) -> <<Bits:Size/bitstring, 0:Spare, Rest/binary>> = Bytes, {{bits, Bits}, Rest}.

map(Count, Bytes) ->
    {Values, Rest} = terms(2 * Count, Bytes),
    {{map, pairs(Values)}, Rest}.
pairs([Key, Value | Rest]) -> [{Key, Value} | pairs(Rest)];
pairs([]) -> [].

export(Bytes) ->
    {Module, Rest} = text(Bytes),
    {Function, <<97, Arity, After/binary>>} = text(Rest),
    {{export, Module, Function, Arity}, After}.

reference(Count, Bytes) ->
    {Node, <<Creation:32, Rest/binary>>} = text(Bytes),
    Size = 4 * Count,
    <<Words:Size/binary, After/binary>> = Rest,
    {{ref, Node, [Word || <<Word:32>> <= Words], Creation}, After}.

%% The canonical standalone term of a value.
bytes(Value) -> <<131, (form(Value))/binary>>.

form({int, N}) when N >= 0, N < 256 -> <<97, N>>;
form({int, N}) when N >= -(1 bsl 31), N < 1 bsl 31 -> <<98, N:32>>;
form({int, N}) ->
    Digits = binary:encode_unsigned(abs(N), little),
    Sign = case N < 0 of true -> 1; false -> 0 end,
    joined([sized({110, 8}, {111, 32}, byte_size(Digits)), Sign, Digits]);
form({float, Bits}) -> <<70, Bits:64>>;
form({atom, Text}) ->
    Utf8 = unicode:characters_to_binary(Text),
    joined([sized({119, 8}, {118, 16}, byte_size(Utf8)), Utf8]);
form({tuple, Values}) -> joined([sized({104, 8}, {105, 32}, length(Values)) | forms(Values)]);
form({list, [], nil}) -> <<106>>;
form({list, Values, nil}) ->
    case [N || {int, N} <- Values, N >= 0, N < 256] of
        Bytes when length(Bytes) =:= length(Values), length(Bytes) < 65536 -> joined([<<107, (length(Bytes)):16>>, Bytes]);
        _ -> joined([<<108, (length(Values)):32>>, forms(Values), 106])
    end;
form({list, Values, Tail}) -> joined([<<108, (length(Values)):32>>, forms(Values), form(Tail)]);
form({bits, Bits}) when is_binary(Bits) -> <<109, (byte_size(Bits)):32, Bits/binary>>;
form({bits, Bits}) ->
    Last = bit_size(Bits) rem 8,
    <<77, (byte_size(Bits)):32, Last, Bits/bitstring, 0:(8 - Last)>>;
form({map, Pairs}) ->
    Rising = lists:keysort(1, [{form(Key), Value} || {Key, Value} <- Pairs]),
    joined([<<116, (length(Pairs)):32>>, [[Key, form(Value)] || {Key, Value} <- Rising]]);
form({pid, Node, Id, Serial, Creation}) -> joined([88, form({atom, Node}), <<Id:32, Serial:32, Creation:32>>]);
form({port, Node, Id, Creation}) when Id < 1 bsl 28 -> joined([89, form({atom, Node}), <<Id:32, Creation:32>>]);
form({port, Node, Id, Creation}) -> joined([120, form({atom, Node}), <<Id:64, Creation:32>>]);
form({ref, Node, Words, Creation}) -> joined([<<90, (length(Words)):16>>, form({atom, Node}), <<Creation:32>>, [<<Word:32>> || Word <- Words]]);
form({export, Module, Function, Arity}) -> joined([113, form({atom, Module}), form({atom, Function}), 97, Arity]).

forms(Values) -> [form(Value) || Value <- Values].
joined(Parts) -> iolist_to_binary(Parts).

%% A tag and a size, in the first width if it holds the size.
sized({Tag, Width}, _, Size) when Size < 1 bsl Width -> <<Tag, Size:Width>>;
sized(_, {Tag, Width}, Size) -> <<Tag, Size:Width>>.

%% The bytes after an atom with any of its tags.
after_atom(<<Tag, Size:16, _:Size/binary, Rest/binary>>) when Tag =:= 100; Tag =:= 118 -> Rest;
after_atom(<<Tag, Size, _:Size/binary, Rest/binary>>) when Tag =:= 115; Tag =:= 119 -> Rest;
after_atom(<<82, _, Rest/binary>>) -> Rest.

%% The value with what the reasons name taken away: the sign of the float zero, zero words at a reference's end; pairs in one order.
alike(Reasons, Value) -> here(Reasons, parts(fun(Part) -> alike(Reasons, Part) end, Value)).

here(Reasons, Value = {float, 16#8000000000000000}) -> given(zero_sign, Reasons, {float, 0}, Value);
here(Reasons, Value = {ref, Node, Words, Creation}) -> given(zero_words, Reasons, {ref, Node, without_zeros(Words), Creation}, Value);
here(_, {map, Pairs}) -> {map, lists:sort(Pairs)};
here(_, Value) -> Value.

given(Reason, Reasons, Changed, Value) ->
    case lists:member(Reason, Reasons) of
        true -> Changed;
        false -> Value
    end.

without_zeros(Words) -> lists:reverse(lists:dropwhile(fun(Word) -> Word =:= 0 end, lists:reverse(Words))).

%% The value with each part as the function gives it.
parts(Fun, {tuple, Values}) -> {tuple, lists:map(Fun, Values)};
parts(Fun, {list, Values, nil}) -> {list, lists:map(Fun, Values), nil};
parts(Fun, {list, Values, Tail}) -> {list, lists:map(Fun, Values), Fun(Tail)};
parts(Fun, {map, Pairs}) -> {map, [{Fun(Key), Fun(Value)} || {Key, Value} <- Pairs]};
parts(_, Value) -> Value.

%% The one reason, or both, that makes two different values alike; none where they stay different, or mean the same.
why_same(A, B) ->
    Tries = [{none, []}, {zero_sign, [zero_sign]}, {zero_words, [zero_words]}, {several, [zero_sign, zero_words]}],
    case [Name || {Name, Reasons} <- Tries, alike(Reasons, A) =:= alike(Reasons, B)] of
        [Name | _] -> Name;
        [] -> none
    end.

%% The first answer other than none that the function gives for a part of the value, or for the value itself.
find(Fun, Value) ->
    case Fun(Value) of
        none -> first(Fun, below(Value));
        Found -> Found
    end.

first(_, []) -> none;
first(Fun, [Part | Rest]) ->
    case find(Fun, Part) of
        none -> first(Fun, Rest);
        Found -> Found
    end.

%% All answers other than none, of the value and of its parts.
all(Fun, Value) -> [Found || Found <- [Fun(Value)], Found =/= none] ++ lists:append([all(Fun, Part) || Part <- below(Value)]).

below({tuple, Values}) -> Values;
below({list, Values, nil}) -> Values;
below({list, Values, Tail}) -> [Tail | Values];
below({map, Pairs}) -> lists:append([[Key, Value] || {Key, Value} <- Pairs]);
below(_) -> [].
