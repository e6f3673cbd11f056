%% Standalone terms through the writer and the reader, against the node's own binary_to_term and term_to_binary.
-module(term_tests).
-export([run/1, parts/0, say_differences/0, on_node/1, own_bytes/2, without/4, differs_for/1]).

-define(OWN, "terms of the node's term_to_binary").
-define(OURS, "terms of our generator").
-define(LISTS, "lists of 8,185 to 8,195 parts").
-define(PAIRS, "pairs, canonical form against =:=").
-define(VALUES, "values of our generator").
-define(BAD_BYTES, "bad bytes of texts").
-define(NARROW, "the same messages with other flags").
-define(ENDS, "identifiers at the ends of their ranges").
-define(LISTED, "listed differences").

parts() -> [?OWN, ?OURS, ?LISTS, ?PAIRS, ?VALUES, ?BAD_BYTES, ?NARROW, ?ENDS, ?LISTED].

run(Program) ->
    Drive = drive_port:with_flags(drive_port:open(Program), 3),
    pick:seed(1),
    [one(Drive, ?OWN, node_terms:bytes()) || _ <- lists:seq(1, 6000)],
    tally:say(?OWN, both_accept(?OWN)),
    pick:seed(2),
    [one(Drive, ?OURS, inputs:message()) || _ <- lists:seq(1, 10000)],
    tally:say(?OURS, both_accept(?OURS)),
    long_lists(Drive),
    tally:say(?LISTS, both_accept(?LISTS)),
    pick:seed(3),
    [pair(Drive, pick_pair()) || _ <- lists:seq(1, 5000)],
    tally:say(?PAIRS, io_lib:format("~b equal, ~b different for both", [tally:count({note, same}), tally:count({note, different})])),
    tally:say(?VALUES, "each is accepted, and its canonical form is that of the value"),
    tally:say(?BAD_BYTES, "a text goes wrong where refusal 5 says"),
    [layout(Drive, Layout) || Layout <- wide:layouts()],
    tally:say(?ENDS, "tags 88 and 90 widen with V4_NC, 103 and 114 do not"),
    tally:say(?NARROW, io_lib:format("~b have wide identifiers, 4 at the first one without V4_NC", [tally:count({note, wide})])),
    drive_port:close(Drive).

%% One layout of an identifier, with all flags and on the node.
layout(Drive, {Bytes, With, Without}) ->
    one(Drive, ?ENDS, Bytes),
    [layout(Drive, Bytes, Flags, Right) || {Flags, Right} <- [{0, Without}, {1, Without}, {2, With}, {3, With}]].

%% Rows of the identifier and its node, or 4 at the tag.
layout(Drive, Bytes, Flags, Right) ->
    Read = drive_port:read(drive_port:with_flags(Drive, Flags), "standalone", "empty", Bytes),
    Expected = case Right of true -> {ok, 1, 2}; false -> {refused, 4, 1} end,
    tally:check(?ENDS, Read =:= Expected, {Flags, Bytes, Read, Expected}).

%% In each layout those of up to 8,191 parts are accepted, and no longer one.
long_lists(Drive) ->
    Messages = [{Count, Bytes} || Count <- lists:seq(8185, 8195), Bytes <- inputs:lists_of(Count)],
    [one(Drive, ?LISTS, Bytes) || {_, Bytes} <- Messages],
    Short = length([Count || {Count, _} <- Messages, Count =< 8191]),
    tally:check(?LISTS, tally:count({note, {both, ?LISTS}}) =:= Short, {accepted, tally:count({note, {both, ?LISTS}}), Short}).

both_accept(Part) ->
    io_lib:format("~b accepted by both, ~b by neither, ~b by one for a listed reason",
                  [tally:count({note, {What, Part}}) || What <- [both, neither, listed]]).

say_differences() ->
    [say_difference(Name, What, Clause, tally:count({difference, Name})) || {Name, What, Clause} <- differences:list()],
    tally:say(?LISTED, "a reason passes where an input meets it").

%% A listed reason that no input meets is not tested.
say_difference(Name, What, Clause, Count) ->
    io:format("  ~b times: ~ts (~ts)~n", [Count, What, Clause]),
    tally:check(?LISTED, Count > 0, {never_met, Name}).

one(Drive, Part, Bytes) -> tally:guard(Part, Bytes, false, fun() -> judged(Drive, Part, Bytes) end).

%% One message: who accepts it, and do both find the same.
judged(Drive, Part, Bytes) ->
    Written = drive_port:write(Drive, "standalone", "empty", Bytes),
    Read = drive_port:read(Drive, "standalone", "empty", Bytes),
    Node = on_node(Bytes),
    other_flags(Drive, Bytes, Read, Written, Node),
    case {Written, Node} of
        {{ok, Output}, {ok, Term, _}} -> both(Drive, Part, Bytes, Output, Term, Read);
        {_, {ok, Term, Used}} -> listed(Part, agree(Read, Written), differences:node_only(Written, Bytes, Term, Used), Bytes, Written);
        {{ok, Output}, refused} -> listed(Part, agree(Read, Written), differences:ours_only(Output), Bytes, Written);
        {_, refused} -> tally:note({neither, Part}, 1), bad_byte(Written, Bytes), tally:check(Part, agree(Read, Written), {Bytes, Read, Written})
    end.

%% The message with other flags: UTF-8 changes nothing, and without V4_NC only wide identifiers are refused, which the node reads.
other_flags(Drive, Bytes, Read, Written, Node) ->
    Identifiers = wide_in(Drive, Bytes, Written),
    Right = without(fun(Flags) -> drive_port:read(drive_port:with_flags(Drive, Flags), "standalone", "empty", Bytes) end, Bytes, Read, Identifiers),
    Narrow = drive_port:with_flags(Drive, 1),
    {ReadNarrow, WrittenNarrow} = {drive_port:read(Narrow, "standalone", "empty", Bytes), drive_port:write(Narrow, "standalone", "empty", Bytes)},
    Same = WrittenNarrow =:= Written orelse ReadNarrow =/= Read,
    tally:check(?NARROW, Right andalso agree(ReadNarrow, WrittenNarrow) andalso Same, {Read, ReadNarrow, Written, WrittenNarrow, Bytes}),
    ReadNarrow =/= Read andalso tally:note(wide, 1) andalso Node =/= refused andalso tally:difference(wide_read).

%% Whether the answers with flags 0, 1 and 2 are right beside that with 3.
without(Read, Bytes, With, Identifiers) ->
    Read(2) =:= With andalso lists:all(fun(Flags) -> wide:narrow(Bytes, With, Read(Flags), Identifiers) end, [0, 1]).

%% The wide identifiers of an accepted message; refused where it is refused.
wide_in(_, _, {ok, Output}) -> wide:identifiers(canonical:value(Output));
wide_in(Drive, Bytes, {refused, 11, 0}) -> wide_in(Drive, Bytes, drive_port:write(Drive, "standalone", "empty", Bytes, 262144));
wide_in(_, _, {refused, _, _}) -> refused.

bad_byte(Refused = {refused, 5, Place}, Bytes) -> tally:check(?BAD_BYTES, texts:wrong_at(Bytes, Place), {Bytes, Refused});
bad_byte(_, _) -> none.

%% Reader and writer: both accept, or refuse alike; 11 is the writer's alone.
agree({ok, 1, _}, {ok, _}) -> true;
agree({ok, 1, _}, {refused, 11, 0}) -> true;
agree(Read, Written) -> Read =:= Written.

on_node(Bytes) ->
    try binary_to_term(Bytes, [used]) of
        {Term, Used} -> {ok, Term, Used}
    catch error:badarg -> refused
    end.

listed(Part, Consistent, Name, Bytes, Ours) ->
    Name =/= none andalso tally:difference(Name),
    tally:note({listed, Part}, 1),
    tally:check(Part, Consistent andalso Name =/= none, {one_accepts, Bytes, ours, Ours, Name}).

both(Drive, Part, Bytes, Output, Term, Read) ->
    tally:note({both, Part}, 1),
    Found = [{same_term, same_term(Output, Term)},
             {own_bytes, own_bytes(Output, Term)},
             {fixed, drive_port:write(Drive, "standalone", "empty", Output) =:= {ok, Output}},
             {rows, Read =:= {ok, 1, measure:rows(Term)}}],
    Wrong = [What || {What, false} <- Found],
    tally:check(Part, Wrong =:= [], {Wrong, Bytes, ours, Output, Read, node, Term}).

%% =:= to the term, and the node writes both alike (which tells 0.0 from -0.0 too).
same_term(Output, Term) ->
    case on_node(Output) of
        {ok, Again, Used} -> Again =:= Term andalso Used =:= byte_size(Output) andalso term_to_binary(Again) =:= term_to_binary(Term);
        refused -> false
    end.

%% The canonical form is the node's own writing, byte for byte, but for a listed reason.
own_bytes(Output, Term) ->
    case term_to_binary(Term, [{minor_version, 2}]) of
        Output -> true;
        Own -> differs_for(differences:other_bytes(Output, Own))
    end.

differs_for(none) -> false;
differs_for(Name) -> tally:difference(Name).

%% Two encodings of one value, its maps in two orders, of a value and one changed in a place, or of a message and its changed bytes.
pick_pair() ->
    Value = encodings:value(pick:range(0, 3)),
    First = encodings:standalone(Value),
    Other = pick:one_of([Value, values:altered(Value)]),
    {Value, First, pick:one_of([encodings:standalone(values:turned(Other)), encodings:standalone(values:turned(Other)), inputs:changed_bytes(First)])}.

pair(Drive, Pair = {_, First, Second}) -> tally:guard(?PAIRS, {First, Second}, false, fun() -> compared(Drive, Pair) end).

compared(Drive, {Value, First, Second}) ->
    value_kept(drive_port:write(Drive, "standalone", "empty", First), Value, First),
    case {canonical(Drive, First), canonical(Drive, Second)} of
        {{Term, Output}, {Other, Output}} -> tally:note(same, 1), tally:check(?PAIRS, Term =:= Other, {equal_outputs, First, Second, Output});
        {{Term, Output}, {Other, Another}} when Term =:= Other -> alike(Output, Another, First, Second);
        {{_, _}, {_, _}} -> tally:note(different, 1), tally:passed(?PAIRS);
        _ -> true
    end.

%% The output of an encoding is that of the value that was encoded.
value_kept({ok, Output}, Value, Bytes) -> tally:check(?VALUES, canonical:bytes(Value) =:= Output, {Bytes, Output, Value});
value_kept(Refused, _, Bytes) -> tally:failed(?VALUES, {Bytes, Refused}).

alike(Output, Another, First, Second) ->
    tally:check(?PAIRS, differs_for(differences:same_on_node(Output, Another)), {same_term, First, Second, Output, Another}).

%% The node's term and our output, where both accept.
canonical(Drive, Bytes) ->
    case {on_node(Bytes), drive_port:write(Drive, "standalone", "empty", Bytes)} of
        {{ok, Term, _}, {ok, Output}} -> {Term, Output};
        _ -> refused
    end.
