%% Values (see encodings) with the pairs of maps in other orders, which mean the same, and values changed in one place, so that they mean
%% something else, or the same to the node alone.
-module(values).
-export([altered/1, turned/1]).

%% At any depth.
turned(Value) ->
    case canonical:parts(fun turned/1, Value) of
        {map, Pairs} -> {map, pick:shuffle(Pairs)};
        Other -> Other
    end.

altered({tuple, Values = [_ | _]}) -> pick:one_of([{tuple, in_one(Values)}, {list, Values, nil}, {tuple, tl(Values)}]);
altered({list, Values = [_ | _], Tail}) -> pick:one_of([{list, in_one(Values), Tail}, {tuple, Values}, {list, lists:reverse(Values), Tail}]);
altered({list, [], nil}) -> pick:one_of([{tuple, []}, {bits, <<>>}, {atom, ""}, {map, []}]);
altered({map, Pairs = [_ | _]}) -> pick:one_of([{map, in_one(Pairs)}, {map, tl(Pairs)}]);
altered({Key, Value}) when is_tuple(Key) -> {Key, altered(Value)};
altered({int, N}) -> pick:one_of([{int, N + 1}, {int, -N}, {int, N bxor (1 bsl pick:range(0, 70))}]);
altered({float, Bits}) -> {float, Bits bxor pick:one_of([1, 1 bsl 63])};
altered({atom, Text}) -> {atom, tl(Text ++ "x")};
altered({bits, Bits}) -> {bits, <<Bits/bitstring, 0:1>>};
altered(Pid = {pid, _, _, _, _}) -> pick:one_of([other_field(Pid, pick:range(3, 5)), other_bit(Pid, pick:range(3, 5))]);
altered({port, Node, Id, Creation}) -> pick:one_of([{port, "x" ++ Node, Id, Creation}, other_field({port, Node, Id, Creation}, pick:range(3, 4))]);
altered({ref, Node, [Word], Creation}) -> {ref, Node, [Word, pick:one_of([0, 1])], Creation};
altered({ref, Node, Words, Creation}) -> {ref, Node, lists:droplast(Words), Creation};
altered({export, Module, Function, Arity}) -> pick:one_of([{export, Function, Module, Arity}, {export, Module, Function, Arity bxor 1}]);
altered(_) -> {int, 7}.

other_field(Value, Field) -> setelement(Field, Value, element(Field, Value) bxor 1).
other_bit(Value, Field) -> setelement(Field, Value, element(Field, Value) bxor (1 bsl pick:range(0, 31))).

%% One element altered.
in_one(List) ->
    {Front, [Element | Rest]} = lists:split(pick:range(0, length(List) - 1), List),
    Front ++ [altered(Element) | Rest].
