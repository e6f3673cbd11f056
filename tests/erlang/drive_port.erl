%% The driver (tests/drive, or any program that speaks its protocol) as a port: commands in, answers out.
-module(drive_port).
-export([open/1, close/1, with_flags/2, ask/2, read/4, write/4, write/5, packet/2, gathered/2, list/2, reset/1, hex/1]).

-record(drive, {port, flags}).

%% Answers are one line each; the longest is the form of 65,536 bytes in hex. UTF-8 alone is agreed.
open(Program) -> #drive{port = open_port({spawn_executable, Program}, [binary, {line, 300000}, use_stdio, exit_status]), flags = 1}.

close(#drive{port = Port}) -> true = port_close(Port), ok.

%% The same driver, asked with this connection byte: bit 0 UTF-8, bit 1 V4_NC.
with_flags(Drive, Flags) -> Drive#drive{flags = Flags}.

%% Sends commands in one go and answers their answers in order.
ask(#drive{port = Port, flags = Flags}, Commands) ->
    true = port_command(Port, [[Command, $\n] || Command <- [["flags ", integer_to_list(Flags)] | Commands]]),
    <<"ok">> = answer(Port),
    [answer(Port) || _ <- Commands].

answer(Port) ->
    receive
        {Port, {data, {eol, Line}}} -> Line;
        {Port, {exit_status, Status}} -> exit({driver_ended, Status})
    after 60000 -> exit(driver_silent)
    end.

%% {ok, Terms, Rows} or {refused, Number, Place}.
read(Drive, Form, List, Bytes) ->
    [Answer] = ask(Drive, [["read ", Form, $\s, List, $\s, hex(Bytes)]]),
    case words(Answer) of
        [<<"ok">>, Terms, Rows] -> {ok, number(Terms), number(Rows)};
        Other -> refusal(Other)
    end.

%% {ok, Output} or {refused, Number, Place}, with 65,536 bytes of output or with Room.
write(Drive, Form, List, Bytes) -> write(Drive, Form, List, Bytes, 65536).

write(Drive, Form, List, Bytes, Room) ->
    [<<"ok">>, Answer] = ask(Drive, [lend("output", Room), ["write ", Form, $\s, List, $\s, hex(Bytes)]]),
    case words(Answer) of
        [<<"ok">>, Length] -> {ok, front(Drive, "output", number(Length))};
        Other -> refusal(Other)
    end.

%% {plain, Offset, Length}, {pending, Due, Gathered}, {complete, Gathered} or {refused, Number, Place}.
packet(Drive, Packet) ->
    [Answer] = ask(Drive, [["packet ", hex(Packet)]]),
    case words(Answer) of
        [<<"plain">>, Offset, Length] -> {plain, number(Offset), number(Length)};
        [<<"pending">>, Due, Gathered] -> {pending, number(Due), number(Gathered)};
        [<<"complete">>, Gathered] -> {complete, number(Gathered)};
        Other -> refusal(Other)
    end.

%% The first Length bytes of the gather buffer, which has its stated size again afterwards.
gathered(Drive, Length) ->
    Bytes = front(Drive, "gather", Length),
    [<<"ok">>] = ask(Drive, [lend("gather", 65536)]),
    Bytes.

%% The word of each reference of a list, plain or pending, and the refusal of the index after them.
list(Drive, List) ->
    [<<Count>>] = [bytes(Hex) || Hex <- ask(Drive, [["get ", List, "-count"]])],
    [word(words(Answer)) || Answer <- ask(Drive, [["word ", List, $\s, integer_to_list(I)] || I <- lists:seq(0, Count)])].

word([<<"text">>, Hex]) -> bytes(Hex);
word(Other) -> refusal(Other).

%% Lends only the first Length bytes from now on, and gets them.
front(Drive, Name, Length) ->
    [<<"ok">>, Hex] = ask(Drive, [lend(Name, Length), ["get ", Name]]),
    bytes(Hex).

lend(Name, Count) -> ["lend ", Name, $\s, integer_to_list(Count)].

reset(Drive) -> [<<"ok">>] = ask(Drive, ["reset"]), ok.

refusal([<<"refused">>, Number, Place]) -> {refused, number(Number), number(Place)};
refusal(Words) -> error({driver_said, Words}).

words(Line) -> binary:split(Line, <<" ">>, [global]).
number(Text) -> binary_to_integer(Text).
hex(<<>>) -> <<"-">>;
hex(Bytes) -> << <<(Digit bor 16#20)>> || <<Digit>> <= binary:encode_hex(Bytes) >>.
bytes(<<"-">>) -> <<>>;
bytes(Hex) -> binary:decode_hex(Hex).
