%% Maps against the node's own: the same pairs in many orders, and two keys that the node finds equal or not.
-module(map_tests).
-export([run/1, parts/0]).

-define(ORDERS, "maps of the node, their pairs in other orders").
-define(KEYS, "two keys of a map, 7 against =:=").

parts() -> [?ORDERS, ?KEYS].

run(Program) ->
    Drive = drive_port:with_flags(drive_port:open(Program), 3),
    pick:seed(5),
    [tally:guard(?ORDERS, Pairs, false, fun() -> orders(Drive, Pairs) end) || Count <- counts(), Pairs <- pairs(Count)],
    tally:say(?ORDERS, io_lib:format("up to ~b pairs, one output for all orders, =:= to the map", [lists:last(counts())])),
    pick:seed(6),
    [keys(Drive, pick_keys()) || _ <- lists:seq(1, 6000)],
    tally:say(?KEYS, io_lib:format("~b equal, ~b different for both", [tally:count({note, equal_keys}), tally:count({note, other_keys})])),
    drive_port:close(Drive).

%% About 32 the node changes how it keeps a map, and its order.
counts() -> [0, 1, 2, 3, 5, 8, 16, 30, 31, 32, 33, 34, 40, 64, 100, 200].

%% Lists of so many pairs, with keys of each kind alone and with all mixed.
pairs(Count) ->
    Kinds = key_kinds(),
    Mixed = fun(I) -> (lists:nth(1 + I rem length(Kinds), Kinds))(I) end,
    [[{Key(I), value(I)} || I <- pick:shuffle(lists:seq(1, Count))] || Key <- [Mixed | Kinds]].

key_kinds() ->
    [fun(I) -> I * 7 - 300 end,
     fun(I) -> (I - 50) bsl 25 end,
     fun(I) -> I bsl (8 * (I rem 40)) end,
     fun(I) -> I / 8 - 9 end,
     fun(I) -> list_to_atom(integer_to_list(I, 2)) end,
     fun(I) -> <<"SKU-", (integer_to_binary(I))/binary>> end,
     fun(I) -> <<I:(I rem 60 + 8)>> end,
     fun(I) -> {I rem 3, -I} end,
     fun(I) -> integer_to_list(I) end,
     fun(I) -> [I - 100 | I] end,
     fun(I) -> #{I => a, b => -I} end,
     fun(I) -> {maps:from_list([{{K, I}, K} || K <- lists:seq(1, 3)]), [#{#{c => I, d => 1} => 2, e => f}]} end].

value(I) when I rem 5 =:= 0 -> #{I => 1, -I => #{z => 1, y => 2, 3 => I}};
value(I) -> 1000 - I.

%% The map built in two ways, by the node's writing and by many encodings of our own.
orders(Drive, Pairs) ->
    Map = maps:from_list(Pairs),
    true = Map =:= maps:from_list(lists:reverse(Pairs)),
    Value = {map, Written} = canonical:of_term(Map),
    Values = [{map, lists:reverse(Written)} | [values:turned(Value) || _ <- lists:seq(1, 4)]],
    Messages = [term_to_binary(Map), term_to_binary(Map, [deterministic]) | [encodings:standalone(Each) || Each <- Values]],
    Output = canonical:bytes(Value),
    Found = [{written, [drive_port:write(Drive, "standalone", "empty", Message) || Message <- Messages] -- [{ok, Output} || _ <- Messages] =:= []},
             {rows, lists:usort([drive_port:read(Drive, "standalone", "empty", Message) || Message <- Messages]) =:= [{ok, 1, measure:rows(Map)}]},
             {read_back, binary_to_term(Output, [used]) =:= {Map, byte_size(Output)}},
             {own_bytes, term_tests:own_bytes(Output, Map)}],
    Wrong = [What || {What, false} <- Found],
    tally:check(?ORDERS, Wrong =:= [], {Wrong, Map}).

%% A value that holds a map of two pairs or more, and the same in other orders, or one changed in a place.
pick_keys() ->
    Value = encodings:value(pick:range(1, 3)),
    case canonical:find(fun has_pairs/1, Value) of
        none -> pick_keys();
        found -> {Value, values:turned(pick:one_of([Value, values:altered(Value)]))}
    end.

has_pairs({map, [_, _ | _]}) -> found;
has_pairs(_) -> none.

keys(Drive, Keys) -> tally:guard(?KEYS, Keys, false, fun() -> compared(Drive, Keys) end).

compared(Drive, {Key, Other}) ->
    [First, Later] = [encodings:standalone(Each) || Each <- [Key, Other]],
    case {term_tests:on_node(First), term_tests:on_node(Later)} of
        {{ok, Term, _}, {ok, Another, _}} -> judged(Drive, Key, Other, First, Later, Term =:= Another);
        _ -> none
    end.

%% The later key's place, where the node finds them equal.
judged(Drive, Key, Other, <<131, First/binary>>, <<131, Later/binary>>, Equal) ->
    Map = <<131, 116, 2:32, First/binary, 97, 1, Later/binary, 97, 2>>,
    Place = 6 + byte_size(First) + 2,
    Right = case {Equal, drive_port:read(Drive, "standalone", "empty", Map)} of
        {true, {refused, 7, Place}} -> tally:note(equal_keys, 1);
        {true, {ok, 1, _}} -> term_tests:differs_for(canonical:why_same(Key, Other));
        {false, {ok, 1, _}} -> tally:note(other_keys, 1);
        _ -> false
    end,
    tally:check(?KEYS, Right andalso Equal =:= (term_tests:on_node(Map) =:= refused), {Equal, Place, Map}).
