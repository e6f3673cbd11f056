%% A live connection: real packets of a node through the packet call, their payloads through reader and writer, against what the node sent.
%% Each part has a connection of its own, with or without V4_NC, and resets the driver's cache before it.
-module(live_tests).
-export([run/4, parts/0]).

-define(MANY, "real packets, atom cache").
-define(RECUT, "real payloads cut into fragments").
-define(NEAR, "real messages of about 65,536 bytes").
-define(LONG, "real fragments, a refused sequence dropped").
-define(KEPT, "real fragments, a refused sequence kept").
-define(TEXTS, "real packets, texts over 32 bytes").
-define(FUNS, "real packets with funs").
-define(LATIN1, "real packets, headers taken as Latin-1").
-define(UNKNOWN, "real packets, unknown flags").
-define(WIDE, "wide identifiers, V4_NC agreed").
-define(UNAGREED, "wide identifiers, V4_NC not agreed").
-define(BACK, "our output sent to the node and back").
-define(WIDE_BACK, "our output sent to the node and back, V4_NC agreed").
-define(OWN, "wide identifiers of the node itself").

parts() -> [?MANY, ?RECUT, ?LATIN1, ?UNKNOWN, ?NEAR, ?LONG, ?KEPT, ?TEXTS, ?FUNS, ?WIDE, ?UNAGREED, ?BACK, ?WIDE_BACK, ?OWN].

%% Room for the canonical form of any payload here: texts take the place of references.
-define(ROOM, 262144).

%% The driver's flags are those that the connection agreed on.
-record(run, {drive, node, cookie, folder, v4_nc}).

%% The driver program, the node's name, the cookie, the folder for logs.
run(Program, Node, Cookie, Folder) ->
    pick:seed(4),
    Drive = drive_port:open(Program),
    Run = #run{drive = drive_port:with_flags(Drive, 1), node = Node, cookie = Cookie, folder = Folder, v4_nc = no_v4_nc},
    WideRun = Run#run{drive = drive_port:with_flags(Drive, 3), v4_nc = v4_nc},
    {Packets, Log, Outputs} = many(Run),
    recut(WideRun, Packets, Log),
    latin1(Run, lists:sublist(Packets, 900)),
    unknown(Run, hd(Packets)),
    near(Run),
    long(Run),
    kept(Run),
    texts(Run),
    funs(Run),
    wide(WideRun),
    unagreed(Run),
    back(Run, Outputs),
    wide_back(WideRun),
    own(WideRun),
    drive_port:close(Drive).

%% Parts.

many(Run) ->
    {Packets, Log} = sent(Run, many, 4, 900),
    {Outputs, Model} = feed(Run, ?MANY, Packets, Log, keep),
    all_met(?MANY, Outputs, Log),
    in_order(?MANY, Outputs),
    same_cache(Run#run.drive, ?MANY, Model),
    {Entered, Replaced, Cached} = cache_use(Packets),
    tally:check(?MANY, Entered > 2048 andalso Replaced > 0 andalso Cached > 0, {cache_use, Entered, Replaced, Cached}),
    tally:say(?MANY, io_lib:format("~b packets, ~b texts entered, ~b of them over another text, ~b cached references, ~b words",
                                   [length(Packets), Entered, Replaced, Cached, tally:count({note, {?MANY, words}})])),
    {Packets, Log, [Output || {_, Output} <- Outputs]}.

%% The packet call has no use for V4_NC.
recut(Run, Packets, Log) ->
    Cut = cut(Packets, []),
    {Outputs, Model} = feed(Run, ?RECUT, Cut, Log, keep),
    all_met(?RECUT, Outputs, Log),
    [met(?RECUT, What) || What <- [plain, plain_between, pending, complete, words_replaced_in_cache]],
    same_cache(Run#run.drive, ?RECUT, Model),
    say(?RECUT, Cut).

near(Run) ->
    {Near, NearLog} = sent(Run, near, 1, 25),
    {Outputs, _} = feed(Run, ?NEAR, Near, NearLog, keep),
    all_met(?NEAR, Outputs, NearLog),
    in_order(?NEAR, Outputs),
    {Edge, EdgeLog} = sent(Run, edge, 1, 60),
    feed(Run, ?NEAR, Edge, EdgeLog, drop),
    met(?NEAR, complete),
    met(?NEAR, {refused, 12}),
    say(?NEAR, Near ++ Edge).

long(Run) ->
    {Packets, Log} = sent(Run, long, 3, 12),
    feed(Run, ?LONG, Packets, Log, drop),
    [met(?LONG, What) || What <- [plain, pending, {refused, 12}, {refused, 25}]],
    say(?LONG, Packets).

kept(Run = #run{drive = Drive}) ->
    {Packets, Log} = sent(Run, long, 3, 8),
    {_, Model} = feed(Run, ?KEPT, Packets, Log, keep),
    [met(?KEPT, What) || What <- [plain, pending, {refused, 12}, {refused, 26}]],
    {Sequence, Due, Gathered} = packet_model:pending(Model),
    tally:check(?KEPT, record(Drive) =:= <<Sequence:64, Due:64, Gathered:64>>, {record, record(Drive), Sequence, Due, Gathered}),
    Answers = drive_port:ask(Drive, ["drop", "drop", ["packet ", drive_port:hex(<<131, 70, Sequence:64, Due:64>>)]]),
    tally:check(?KEPT, Answers =:= [<<"ok">>, <<"refused 25 0">>, <<"refused 25 0">>], {drops, Answers}),
    tally:check(?KEPT, record(Drive) =:= <<0:192>>, {record_after_drop, record(Drive)}),
    say(?KEPT, Packets).

texts(Run) ->
    {Packets, Log} = sent(Run, long_texts, 2, 150),
    {_, Model} = feed(Run, ?TEXTS, Packets, Log, keep),
    same_cache(Run#run.drive, ?TEXTS, Model),
    [met(?TEXTS, What) || What <- [plain, {refused, 23}, {refused, 21}]],
    Wide = [Text || <<131, 68, Rest/binary>> <- Packets, {new, _, Text} <- element(1, packet_model:header(Rest)), byte_size(Text) > 255],
    tally:check(?TEXTS, Wide =/= [], {never_met, long_atoms}),
    say(?TEXTS, Packets).

funs(Run) ->
    {Packets, Log} = sent(Run, funs, 1, 50),
    feed(Run, ?FUNS, Packets, Log, keep),
    met(?FUNS, fun_refused),
    say(?FUNS, Packets).

%% Without the UTF-8 flag the bytes of the same texts are characters of Latin-1.
latin1(#run{drive = Drive}, Packets) ->
    Latin1 = drive_port:with_flags(Drive, 2),
    drive_port:reset(Latin1),
    Model = lists:foldl(fun(Packet, Model) -> element(4, taken(Latin1, ?LATIN1, Packet, Model)) end, packet_model:new(latin1), Packets),
    same_cache(Latin1, ?LATIN1, Model),
    [met(?LATIN1, What) || What <- [plain, {refused, 23}, {refused, 21}]],
    say(?LATIN1, Packets).

%% Each call but the reset refuses an unknown flag with 14 and writes nothing.
unknown(#run{drive = Drive}, Packet) ->
    drive_port:reset(Drive),
    {{plain, Offset, Length}, _, _, _} = taken(Drive, ?UNKNOWN, Packet, packet_model:new(utf8)),
    Payload = drive_port:hex(binary:part(Packet, Offset, Length)),
    Calls = [["read payload plain ", Payload], ["write payload plain ", Payload], ["number payload plain 0 ", Payload], ["mark payload plain 0 ", Payload],
             ["packet ", drive_port:hex(Packet)], "drop", "word plain 0"],
    [<<"ok 2 ", _/binary>>, _] = drive_port:ask(Drive, [hd(Calls), "fill table 00"]),
    Commands = ["same" | Calls] ++ [["text payload plain 0 ", Payload], "changed"],
    Expected = [<<"ok">> | [<<"refused 14 0">> || _ <- Calls]] ++ [<<"empty">>, <<"-">>],
    Answers = [{Flags, drive_port:ask(drive_port:with_flags(Drive, Flags), Commands)} || Flags <- lists:seq(4, 255)],
    [tally:check(?UNKNOWN, Answer =:= Expected, {flags, Flags, Answer}) || {Flags, Answer} <- Answers],
    tally:say(?UNKNOWN, "all bytes from 4 to 255").

%% The node sends identifiers at the ends of all ranges.
wide(Run) ->
    {Packets, Log} = sent_wide(Run, ?WIDE),
    own_in_limits(Run, Log),
    say(?WIDE, Packets).

sent_wide(Run, Part) ->
    {Packets, Log} = sent(Run, wide, 2, 150),
    {Outputs, Model} = feed(Run, Part, Packets, Log, keep),
    all_met(Part, Outputs, Log),
    in_order(Part, Outputs),
    same_cache(Run#run.drive, Part, Model),
    met(Part, wide_refused),
    {Packets, Log}.

%% The node's own pids, some with a Serial, and aliases keep the older limits.
own_in_limits(Run, Log) ->
    Own = lists:append([canonical:all(fun(Value) -> own_identifier(Run, Value) end, canonical:of_term(Term)) || {_, Term} <- maps:values(Log)]),
    tally:check(?WIDE, [Each || Each <- Own, wide:identifiers(Each) =/= []] =:= [], own_identifiers_are_wide),
    tally:check(?WIDE, [Serial || {pid, _, _, Serial, _} <- Own, Serial > 0] =/= [], {never_met, own_serial}).

%% The value if it is a pid or reference of the node in its present start, whose Creation is never below 4.
own_identifier(#run{node = Node}, Pid = {pid, Node, _, _, Creation}) when Creation > 3 -> Pid;
own_identifier(#run{node = Node}, Reference = {ref, Node, _, Creation}) when Creation > 3 -> Reference;
own_identifier(_, _) -> none.

%% The node sends and takes them whatever was agreed.
unagreed(Run = #run{drive = Drive}) ->
    {Packets, Log} = sent_wide(Run, ?UNAGREED),
    [tally:difference(wide_sent) || {_, Message} <- maps:values(Log), wide:identifiers(canonical:of_term(Message)) =/= []],
    Sent = written(drive_port:with_flags(Drive, 3), [Value || Value <- end_values(Run), wide:identifiers(Value) =/= []]),
    all_returned(Run, ?UNAGREED, Sent),
    [tally:difference(wide_taken) || _ <- Sent],
    say(?UNAGREED, Packets).

%% Canonical messages, of the node's own and of generated values, reach a process of the node as they are, and come back as they are.
back(Run = #run{drive = Drive}, Outputs) ->
    Ends = written(Drive, end_values(Run)),
    all_returned(Run, ?BACK, Outputs ++ Ends),
    Back = returned(Run, ?BACK, generated(Drive)),
    tally:say(?BACK, io_lib:format("each is =:= to what the node received; ~b came back, equal", [length(Outputs ++ Ends ++ Back)])).

wide_back(Run = #run{drive = Drive}) ->
    Ends = written(Drive, end_values(Run)),
    tally:check(?WIDE_BACK, [canonical:value(Output) || Output <- Ends] =:= end_values(Run), ends_not_written),
    all_returned(Run, ?WIDE_BACK, Ends),
    returned(Run, ?WIDE_BACK, generated(Drive)),
    tally:say(?WIDE_BACK, io_lib:format("~b messages with wide identifiers", [tally:count({note, {?WIDE_BACK, wide_refused}})])).

%% The canonical forms of the values that the flags let through.
written(Drive, Values) -> [Output || Value <- Values, {ok, Output} <- [drive_port:write(Drive, "standalone", "empty", encodings:standalone(Value))]].

%% Identifiers at the ends of their ranges, of another node and of an earlier start of this one.
end_values(#run{node = Node}) -> wide:ends("a@b", 7) ++ wide:ends(Node, 1).

generated(Drive) ->
    Values = pick:some(1500, fun() -> encodings:value(pick:range(0, 3)) end),
    [Output || Output <- written(Drive, Values), readable(Output)].

all_returned(Run, Part, Sent) -> tally:check(Part, length(returned(Run, Part, Sent)) =:= length(Sent), not_all_came_back).

%% Messages to a process of the node, which sends each back. Answers those that came back; texts over 32 bytes do not.
returned(Run, Part, Sent) ->
    {Link, Name} = join(Run),
    [dist_link:register_send(Link, "receiver", Output) || Output <- Sent],
    File = filename:join(Run#run.folder, "received"),
    Marker = pick:bytes(16),
    dist_link:register_send(Link, "receiver", term_to_binary({keep, File, Name, Marker})),
    Packets = collect(Link, Marker),
    as_sent(Part, Sent, node_side:read_log(File)),
    Log = log(File, 1),
    {Outputs, _} = feed(Run, Part, Packets, Log, keep),
    Numbered = maps:from_list(lists:enumerate(Sent)),
    [tally:check(Part, came_back(Number, map_get(Number, Numbered), Back), {Number, Back}) || {{1, Number}, Back} <- Outputs].

%% {1, Number, Message}, with the message's own bytes but for a listed reason.
came_back(Number, <<131, Message/binary>>, Back) ->
    <<131, Integer/binary>> = term_to_binary(Number),
    case <<131, 104, 3, 97, 1, Integer/binary, Message/binary>> of
        Back -> true;
        Other -> term_tests:differs_for(differences:same_on_node(Other, Back))
    end.

%% The node closes a connection on which one of its own identifiers is wider than it makes them; we read it.
own(Run = #run{drive = Drive, node = Node}) ->
    {Link, _} = join(Run),
    Creation = dist_link:creation(Link),
    dist_link:close(Link),
    Values = wide:ends(Node, Creation),
    Wide = [Value || Value <- Values, wide:identifiers(Value) =/= []],
    Closing = written(Drive, Wide),
    tally:check(?OWN, length(Closing) =:= length(Wide), wide_not_written),
    [tally:check(?OWN, closed(Run, Output) andalso tally:difference(own_closes), {not_closed, Output}) || Output <- Closing],
    Pids = written(Drive, [Value || Value = {pid, _, _, _, _} <- Values -- Wide]),
    all_returned(Run, ?OWN, Pids),
    tally:say(?OWN, io_lib:format("~b close the connection, ~b pids in its limits come back", [length(Closing), length(Pids)])).

closed(Run, Output) ->
    {Link, _} = join(Run),
    dist_link:register_send(Link, "receiver", Output),
    Answer = dist_link:next(Link, 10000),
    dist_link:close(Link),
    Answer =:= {error, closed}.

as_sent(Part, [Output | Sent], [Term | Received]) ->
    tally:check(Part, same(binary_to_term(Output), Term), {Output, Term}),
    as_sent(Part, Sent, Received);
as_sent(Part, Sent, Received) -> tally:check(Part, Sent =:= [] andalso Received =:= [], {left_over, Sent, Received}).

readable(Output) ->
    try binary_to_term(Output) of
        _ -> true
    catch error:badarg -> false
    end.

%% One line with the kinds of answers.
say(Part, Packets) ->
    Kinds = [plain, plain_between, pending, complete, words, words_replaced_in_cache, fun_refused, wide_refused
             | [{refused, Number} || Number <- [12, 21, 23, 24, 25, 26]]],
    Met = [io_lib:format(", ~b ~tp", [Count, Kind]) || Kind <- Kinds, Count <- [tally:count({note, {Part, Kind}})], Count > 0],
    tally:say(Part, [io_lib:format("~b packets", [length(Packets)]), Met]).

%% A kind of answer that the part is about must come at least once.
met(Part, Kind) -> tally:check(Part, tally:count({note, {Part, Kind}}) > 0, {never_met, Kind}).

%% The node.

join(#run{drive = Drive, node = Node, cookie = Cookie, v4_nc = V4Nc}) ->
    drive_port:reset(Drive),
    Name = "ik" ++ integer_to_list(erlang:unique_integer([positive])) ++ "@127.0.0.1",
    {dist_link:connect(Name, Node, Cookie, V4Nc), list_to_atom(Name)}.

%% The packets of a connection on which the node was asked to send, and the node's log: {Sender, Number} to control message and message.
sent(Run = #run{folder = Folder}, Kind, Senders, Count) ->
    {Link, Name} = join(Run),
    File = filename:join(Folder, Kind),
    Marker = pick:bytes(16),
    dist_link:register_send(Link, "orders", term_to_binary({send, Kind, pick:bits(30), Senders, Count, Name, File, Marker})),
    Packets = collect(Link, Marker),
    {Packets, log(File, Senders)}.

log(File, Senders) ->
    Entries = lists:append([node_side:read_log(File ++ integer_to_list(Sender)) || Sender <- lists:seq(1, Senders)]),
    maps:from_list([{{Sender, Number}, Entry} || Entry = {_, {Sender, Number, _}} <- Entries]).

%% All packets up to the one with the marker.
collect(Link, Marker) ->
    {ok, Packet} = dist_link:next(Link, 30000),
    case binary:match(Packet, Marker) of
        nomatch -> [Packet | collect(Link, Marker)];
        _ -> dist_link:close(Link), []
    end.

%% Packets through the driver, with what the model expects beside it. After a 12, Policy is drop or keep.
%% Answers {{Sender, Number}, Output of the message} for each message read, in order, and the model.
feed(Run, Part, Packets, Log, Policy) ->
    drive_port:reset(Run#run.drive),
    {Outputs, Model} = lists:mapfoldl(fun(Packet, Model) -> step(Run, Part, Packet, Log, Policy, Model) end, packet_model:new(utf8), Packets),
    {lists:append(Outputs), Model}.

step(#run{drive = Drive}, Part, Packet, Log, Policy, Model) ->
    {Answer, Expected, Payload, Next} = taken(Drive, Part, Packet, Model),
    Outputs = [Output || Answer =:= Expected, Payload =/= none, Output <- payload(Drive, Part, Answer, Packet, Payload, Log)],
    {Outputs, after_answer(Drive, Part, Answer, Policy, Next)}.

%% The packet call's answer, the model's, the payload and the model after it; the lists' words are compared.
taken(Drive, Part, Packet, Model) ->
    Answer = drive_port:packet(Drive, Packet),
    {Expected, Payload, Next} = packet_model:take(Packet, Model),
    tally:check(Part, Answer =:= Expected, {packet, Packet, ours, Answer, expected, Expected}),
    tally:note({Part, kind(Answer, packet_model:pending(Model))}, 1),
    [same_words(Drive, Part, List, Entries, packet_model:cache(Next)) || {List, Entries} <- packet_model:words(Next)],
    {Answer, Expected, Payload, Next}.

%% The words by a list are the texts of the header that wrote it, whatever packets came since.
same_words(Drive, Part, List, Entries, Cache) ->
    Texts = [Text || {_, Text} <- Entries],
    Words = drive_port:list(Drive, List),
    tally:note({Part, words}, length(Texts)),
    tally:note({Part, words_replaced_in_cache}, length([Place || {Place, Text} <- Entries, map_get(Place, Cache) =/= Text])),
    tally:check(Part, Words =:= Texts ++ [{refused, 6, 0}], {words, List, Words, Texts}).

%% The kind of an answer, by the record before it.
kind({refused, Number, _}, _) -> {refused, Number};
kind({plain, _, _}, {_, Due, _}) when Due > 0 -> plain_between;
kind(Answer, _) -> element(1, Answer).

after_answer(Drive, Part, {refused, 12, 0}, drop, Model) ->
    Pending = packet_model:pending(Model),
    [Record, Answer] = drive_port:ask(Drive, ["get record", "drop"]),
    Expected = case Pending of {_, 0, _} -> <<"refused 25 0">>; _ -> <<"ok">> end,
    {Sequence, Due, Gathered} = Pending,
    tally:check(Part, {Record, Answer} =:= {drive_port:hex(<<Sequence:64, Due:64, Gathered:64>>), Expected}, {drop, Record, Answer, Pending}),
    packet_model:drop(Model);
after_answer(_, _, _, _, Model) -> Model.

record(Drive) -> [Record] = drive_port:ask(Drive, ["get record"]), binary:decode_hex(Record).

%% The payload as the driver points to it, read, written and compared.
payload(Drive, Part, {plain, Offset, Length}, Packet, Payload, Log) ->
    message(Drive, Part, "plain", binary:part(Packet, Offset, Length), Payload, Log);
payload(Drive, Part, {complete, Gathered}, _, Payload, Log) ->
    message(Drive, Part, "pending", drive_port:gathered(Drive, Gathered), Payload, Log).

%% Payloads are read with both flags here, and with the others by compared.
message(Drive, Part, List, Bytes, Payload, Log) ->
    tally:check(Part, Bytes =:= Payload, {payload, Bytes, Payload}),
    Both = drive_port:with_flags(Drive, 3),
    Read = drive_port:read(Both, "payload", List, Bytes),
    case drive_port:write(Both, "payload", List, Bytes, ?ROOM) of
        {ok, Output} -> tally:guard(Part, Output, [], fun() -> compared(Both, Part, List, Bytes, Read, Output, Log) end);
        Refused -> refused(Part, Refused, Read, Bytes), []
    end.

%% A payload is refused for a fun only.
refused(Part, Refused = {refused, Number, Place}, Read, Bytes) ->
    tally:note({Part, fun_refused}, 1),
    tally:check(Part, Read =:= Refused andalso Number =:= 3 andalso binary:at(Bytes, Place) =:= 112, {payload_refused, Refused, Bytes}).

compared(Drive, Part, List, Bytes, Read, Output, Log) ->
    {Control, Used} = binary_to_term(Output, [used]),
    <<First:Used/binary, Second/binary>> = Output,
    Message = {Sender, Number, _} = binary_to_term(Second),
    {SentControl, SentMessage} = maps:get({Sender, Number}, Log),
    Found = [{control, same(Control, SentControl)},
             {message, same(Message, SentMessage)},
             {own_bytes, term_tests:own_bytes(First, SentControl) andalso term_tests:own_bytes(Second, SentMessage)},
             {rows, Read =:= {ok, 2, measure:rows(SentControl) + measure:rows(SentMessage)}},
             {words, own_words(Drive, List, [SentControl, SentMessage])},
             {fixed, fixed(Drive, First) andalso fixed(Drive, Second)},
             {other_flags, other_flags(Drive, Part, List, Bytes, Read, Output, wide:identifiers(canonical:of_term([SentControl, SentMessage])))}],
    Wrong = [What || {What, false} <- Found],
    tally:check(Part, Wrong =:= [], {Wrong, Read, Output, SentControl, SentMessage}),
    [{{Sender, Number}, Second}].

%% Without V4_NC the payload is read and written alike, or refused at its first wide identifier.
other_flags(Drive, Part, List, Bytes, Read, Output, Identifiers) ->
    Again = fun(Flags) -> drive_port:read(drive_port:with_flags(Drive, Flags), "payload", List, Bytes) end,
    Written = drive_port:write(drive_port:with_flags(Drive, 1), "payload", List, Bytes, ?ROOM),
    tally:note({Part, wide_refused}, min(1, length(Identifiers))),
    Expected = case Identifiers of [] -> {ok, Output}; _ -> Again(1) end,
    term_tests:without(Again, Bytes, Read, Identifiers) andalso Written =:= Expected.

%% Each word is an atom of the terms that were sent.
own_words(Drive, List, Terms) ->
    Words = [binary_to_atom(Text) || Text <- drive_port:list(Drive, List), is_binary(Text)],
    lists:usort(Words) -- measure:atoms(Terms) =:= [].

%% Written again, a term that is not too long stays as it is.
fixed(Drive, Output) ->
    Again = drive_port:write(Drive, "standalone", "empty", Output),
    case byte_size(Output) > 65536 of
        true -> Again =:= {refused, 12, 0};
        false -> Again =:= {ok, Output}
    end.

%% =:=, and the node writes both alike.
same(A, B) -> A =:= B andalso term_to_binary(A) =:= term_to_binary(B).

%% Each message of the log was read once.
all_met(Part, Outputs, Log) ->
    Keys = [Key || {Key, _} <- Outputs],
    tally:check(Part, lists:sort(Keys) =:= lists:sort(maps:keys(Log)), {not_met, maps:keys(Log) -- Keys}).

%% The messages of each sender come in order.
in_order(Part, Outputs) ->
    BySender = lists:keysort(1, [Key || {Key, _} <- Outputs]),
    tally:check(Part, BySender =:= lists:sort(BySender), out_of_order).

%% The cache.

same_cache(Drive, Part, Model) ->
    Texts = packet_model:cache(Model),
    Places = << <<Text/binary, 0:(8 * (32 - byte_size(Text)))>> || Place <- lists:seq(0, 2047), Text <- [maps:get(Place, Texts, <<>>)] >>,
    Lengths = << <<Length:16>> || Place <- lists:seq(0, 2047), Length <- [case Texts of #{Place := Text} -> byte_size(Text); _ -> 65535 end] >>,
    Held = [binary:decode_hex(Hex) || Hex <- drive_port:ask(Drive, ["get cache", "get lengths"])],
    tally:check(Part, Held =:= [Places, Lengths], cache_differs).

%% How many texts entered, how many over another, how many cached references.
cache_use(Packets) ->
    References = lists:append([element(1, packet_model:header(Rest)) || <<131, 68, Rest/binary>> <- Packets]),
    New = [Place || {new, Place, _} <- References],
    {length(New), length(New) - length(lists:usort(New)), length(References) - length(New)}.

%% Real plain packets, every other one cut into fragments; those that follow come between its fragments.
cut([], Waiting) -> Waiting;
cut([Packet | Rest], []) ->
    case pick:chance(2) of
        true -> [Start | Later] = fragments(Packet), [Start | cut(Rest, Later)];
        false -> [Packet | cut(Rest, [])]
    end;
cut(Packets, [Fragment | Later]) ->
    case pick:chance(2) of
        true -> [Fragment | cut(Packets, Later)];
        false -> [hd(Packets) | cut(tl(Packets), [Fragment | Later])]
    end.

fragments(<<131, 68, Rest/binary>>) ->
    {_, Payload} = packet_model:header(Rest),
    Header = binary:part(Rest, 0, byte_size(Rest) - byte_size(Payload)),
    [First | Pieces] = pieces(Payload, pick:range(1, 6)),
    Total = 1 + length(Pieces),
    Sequence = pick:bits(64),
    [<<131, 69, Sequence:64, Total:64, Header/binary, First/binary>>
     | [<<131, 70, Sequence:64, (Total - Number):64, Piece/binary>> || {Number, Piece} <- lists:enumerate(Pieces)]].

pieces(Payload, 1) -> [Payload];
pieces(Payload, Count) ->
    Size = pick:range(0, byte_size(Payload)),
    <<Piece:Size/binary, Rest/binary>> = Payload,
    [Piece | pieces(Rest, Count - 1)].
