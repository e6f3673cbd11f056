%% What runs on the real node: processes that send to the joined node as ordered, and one that keeps what it receives and sends it back.
%% What is sent or received is also written to a log by the node's own term_to_binary.
-module(node_side).
-export([start/0, read_log/1]).

start() ->
    register(orders, spawn(fun orders/0)),
    register(receiver, spawn(fun() -> kept([]) end)),
    io:format("ready~n").

%% {send, Kind, Seed, Senders, Count, To, Log, Marker}: so many processes send so many messages each, then the marker is sent.
orders() ->
    receive
        {send, Kind, Seed, Senders, Count, To, Log, Marker} ->
            Processes = [spawn_monitor(fun() -> sender(Kind, Seed + Sender, Sender, Count, To, Log) end) || Sender <- lists:seq(1, Senders)],
            [receive {'DOWN', Monitor, process, Pid, Reason} -> normal = Reason end || {Pid, Monitor} <- Processes],
            {sink, To} ! {finished, Marker}
    end,
    orders().

sender(Kind, Seed, Sender, Count, To, Log) ->
    pick:seed(Seed),
    {ok, File} = file:open(Log ++ integer_to_list(Sender), [write, raw, binary]),
    [send(File, To, {Sender, Number, term(Kind, Number)}) || Number <- lists:seq(1, Count)],
    ok = file:close(File).

send(File, To, Message) ->
    log(File, {{6, self(), '', sink}, Message}),
    {sink, To} ! Message.

log(File, Term) -> Bytes = term_to_binary(Term, [{minor_version, 2}]), ok = file:write(File, <<(byte_size(Bytes)):32, Bytes/binary>>).

read_log(Name) -> {ok, Bytes} = file:read_file(Name), [binary_to_term(Entry) || <<Size:32, Entry:Size/binary>> <= Bytes].

%% Keeps messages until {keep, Log, To, Marker}, then logs them in order, sends each back (and logs that too) and then the marker.
kept(Messages) ->
    receive
        {keep, Log, To, Marker} ->
            {ok, File} = file:open(Log, [write, raw, binary]),
            [log(File, Message) || Message <- lists:reverse(Messages)],
            ok = file:close(File),
            {ok, Back} = file:open(Log ++ "1", [write, raw, binary]),
            [send(Back, To, {1, Number, Message}) || {Number, Message} <- lists:enumerate(lists:reverse(Messages))],
            ok = file:close(Back),
            {sink, To} ! {finished, Marker},
            kept([]);
        Message -> kept([Message | Messages])
    end.

%% The first message has all atoms that later ones share, so that they are in the cache.
term(Kind, 1) when Kind =/= many -> all_few();
%% many: small terms with atoms of up to 32 bytes, now and then more than 255 atoms at once.
term(many, Number) when Number rem 100 =:= 0 -> pick:some(300, fun atom/0);
term(many, _) -> node_terms:term(pick:range(0, 3), fun atom/0);
%% OTP 25 cuts a payload after every 65,536 bytes, a constant of its emulator, so two fragments or more are always over document 01's limit.
%% It guesses the size beforehand, with three bytes for each cached atom; where only the guess is over, it makes a sequence of one fragment.
%% near: payloads below 65,536 bytes with many atoms, each such a sequence.
term(near, _) -> {pick:some(6000, fun few_atoms/0), pick:bytes(pick:range(50000, 53000))};
%% long: payloads above 65,536 bytes, from two to six fragments, with small ones between.
term(long, Number) when Number rem 2 =:= 0 -> {few_atoms(), Number};
term(long, _) -> {few_atoms(), pick:bytes(pick:range(65536, 350000))};
%% edge: payloads of each size from just below to just above 65,536 bytes.
term(edge, Number) -> {one, pick:bytes(65460 + Number)};
%% long_texts: atoms of up to 255 characters, up to 1,020 bytes, beside short ones.
term(long_texts, _) -> pick:some(pick:range(1, 4), fun() -> pick:one_of([few_atoms(), few_atoms(), wide_atom(pick:range(1, 90))]) end);
%% wide: identifiers at the ends of their ranges, of another node and of an earlier start of this one, then random ones, beside the node's own:
%% a pid whose number is past 2^15, an alias, a reference.
term(wide, 2) -> [ok = spawn_and_wait() || _ <- lists:seq(1, 1 bsl 15)], self();
term(wide, Number) -> {few_atoms(), own(), [wide(Number) | pick:one_of([few_atoms(), [], own()])], pick:some(pick:range(0, 2), fun node_terms:wide/0)};
term(funs, Number) -> pick:one_of([fun() -> Number end, {few_atoms(), fun(X) -> X + Number end}]).

wide(Number) ->
    Ends = [Value || {Node, Creation} <- [{"a@b", 7}, {atom_to_list(node()), 1}], Value <- wide:ends(Node, Creation)],
    case Number - 2 =< length(Ends) of
        true -> binary_to_term(encodings:standalone(lists:nth(Number - 2, Ends)));
        false -> node_terms:wide()
    end.

own() -> pick:one_of([spawn(fun() -> ok end), alias(), make_ref(), self(), few_atoms()]).

%% A process that ends at once.
spawn_and_wait() -> {Pid, Monitor} = spawn_monitor(fun() -> ok end), receive {'DOWN', Monitor, process, Pid, normal} -> ok end.

all_few() -> [one, two, three, four, five, 'f\x{fc}nf', '\x{516d}', seven].
few_atoms() -> pick:one_of(all_few()).

%% Texts of 26 to 35 bytes, and of 25 to 253 characters of one to four bytes.
wide_atom(Number) when Number =< 30 -> list_to_atom(lists:duplicate(22 + Number rem 10, $x) ++ integer_to_list(1000 + Number));
wide_atom(Number) ->
    Character = element(1 + Number rem 4, {$a, 16#e9, 16#4e00, 16#1f600}),
    list_to_atom(lists:duplicate(21 + 4 * (Number rem 58), Character) ++ integer_to_list(1000 + Number)).

%% Half of the atoms are from a small part of a store of 4,000.
atom() -> atom(pick:range(1, pick:one_of([60, 4000]))).
atom(Number) when Number rem 3 =:= 0 -> list_to_atom("ascii_" ++ integer_to_list(Number));
atom(Number) when Number rem 3 =:= 1 -> list_to_atom([16#e9, 16#ff | integer_to_list(Number)]);
atom(Number) -> list_to_atom([16#4e00 + Number, 16#1f600 + Number rem 64] ++ lists:duplicate(Number rem 7, 16#3b1 + Number rem 20)).
