%% Measures binary_to_term and term_to_binary on the same messages, best of several rounds; and judges what was written of them.
%% A process with a heap of 64 MB does the work; it collects garbage before each round, so that no collection is counted.
-module(speed).
-export([measure/2, judge/3]).

-define(ROUNDS, 30).
-define(LEAST_NS, 300000). % short, so that on a busy machine some rounds run undisturbed
-define(HEAP_WORDS, 8 * 1024 * 1024).

%% One line for each name that the file has: nanoseconds a message of reading and of writing.
measure(Corpus, File) ->
    in_large_heap(fun() -> [measure_one(Corpus, Name) || Name <- names(File)] end).

in_large_heap(Work) ->
    {Pid, Monitor} = spawn_opt(Work, [monitor, {min_heap_size, ?HEAP_WORDS}, {priority, high}]),
    receive
        {'DOWN', Monitor, process, Pid, normal} -> ok;
        {'DOWN', Monitor, process, Pid, Why} -> io:format(standard_error, "speed: ~p~n", [Why]), halt(1)
    end.

measure_one(Corpus, Name) ->
    Messages = load(filename:join(Corpus, Name)),
    Read = best(fun read_all/2, Messages, length(Messages)),
    Write = best(fun write_all/2, [binary_to_term(M) || M <- Messages], length(Messages)),
    io:format("~s\t~.2f\t~.2f~n", [Name, Read, Write]).

%% Each answer is handed on, so that no call is left out as unused.
read_all([M | Rest], _) -> read_all(Rest, binary_to_term(M));
read_all([], Last) -> Last.

write_all([T | Rest], _) -> write_all(Rest, term_to_binary(T));
write_all([], Last) -> Last.

%% The best round's nanoseconds a message.
best(Run, List, Count) ->
    Once = round_ns(Run, List, 1),
    Repeats = 1 + trunc(?LEAST_NS / Once),
    lists:min([round_ns(Run, List, Repeats) || _ <- lists:seq(1, ?ROUNDS)]) / Repeats / Count.

round_ns(Run, List, Repeats) ->
    garbage_collect(),
    Start = erlang:monotonic_time(nanosecond),
    repeat(Run, List, Repeats, none),
    max(1, erlang:monotonic_time(nanosecond) - Start).

repeat(_, _, 0, Last) -> Last;
repeat(Run, List, N, Last) -> repeat(Run, List, N - 1, Run(List, Last)).

%% Whether all that was written means what the messages mean. The last line says how many also are term_to_binary's bytes.
judge(Corpus, Written, File) ->
    Answers = [judge_one(Corpus, Written, Name, Side) || Name <- names(File), Side <- ["ours", "libei"]],
    Wrong = lists:sum([W || {_, W, _} <- Answers]),
    Total = lists:sum([N || {N, _, _} <- Answers]),
    Equal = lists:sum([E || {_, _, E} <- Answers]),
    io:format("~b written messages judged by binary_to_term, ~b wrong; ~b are term_to_binary's bytes too~n", [Total, Wrong, Equal]),
    halt(case Wrong of 0 -> 0; _ -> 1 end).

judge_one(Corpus, Written, Name, Side) ->
    Messages = load(filename:join(Corpus, Name)),
    Outputs = load(filename:join(Written, Name ++ "." ++ Side)),
    Wrong = [I || {I, M, O} <- lists:zip3(lists:seq(1, length(Messages)), Messages, Outputs), not same(M, O)],
    [io:format("wrong: ~s, message ~b, ~s~n", [Name, I, Side]) || I <- Wrong],
    Equal = [O || {M, O} <- lists:zip(Messages, Outputs), O =:= written_by_erlang(M)],
    {length(Messages), length(Wrong), length(Equal)}.

same(Message, Output) ->
    try binary_to_term(Output, [used]) of
        {Term, Used} -> Used =:= byte_size(Output) andalso Term =:= binary_to_term(Message)
    catch error:badarg -> false
    end.

written_by_erlang(Message) -> term_to_binary(binary_to_term(Message), [{minor_version, 2}]).

names(File) ->
    {ok, Text} = file:read_file(File),
    string:lexemes(binary_to_list(Text), "\n").

load(Path) ->
    {ok, Bytes} = file:read_file(Path),
    [M || <<N:32, M:N/binary>> <= Bytes].
