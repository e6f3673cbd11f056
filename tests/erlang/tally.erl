%% Counts of what passed and failed, and of the listed differences that were met.
-module(tally).
-export([new/0, passed/1, failed/2, difference/1, check/3, guard/4, say/2, count/1, note/2, end_run/1]).

%% Failures shown of a part, and characters of each.
-define(SHOWN, 5).
-define(WIDTH, 1000).

new() -> ets:new(?MODULE, [named_table, public]), ok.

add(Key, More) -> ets:update_counter(?MODULE, Key, More, {Key, 0}).
count(Key) -> add(Key, 0).

passed(Part) -> add({passed, Part}, 1), true.

%% The shortest failures of a part are shown at its end.
failed(Part, What) ->
    add({failed, Part}, 1),
    ets:insert(?MODULE, {{shown, Part, erlang:external_size(What), erlang:unique_integer()}, What}),
    false.

check(Part, true, _) -> passed(Part);
check(Part, false, What) -> failed(Part, What).

%% What the function answers; an error in it is a failure of this input, and Otherwise is answered.
guard(Part, Input, Otherwise, Fun) ->
    try Fun()
    catch error:Reason -> failed(Part, {Input, Reason}), Otherwise
    end.

difference(Name) -> add({difference, Name}, 1), true.
%% Counts something worth saying.
note(Name, More) -> add({note, Name}, More), true.

%% One line for a part, after its failures.
say(Part, Text) ->
    Failures = lists:sort(ets:match_object(?MODULE, {{shown, Part, '_', '_'}, '_'})),
    [io:format("  ~ts: ~ts~n", [Part, string:slice(io_lib:format("~0tp", [What]), 0, ?WIDTH)]) || {_, What} <- lists:sublist(Failures, ?SHOWN)],
    io:format("~ts: ~b passed, ~b failed; ~ts~n", [Part, count({passed, Part}), count({failed, Part}), Text]).

%% The last line; answers the exit status.
end_run(Parts) ->
    Passed = lists:sum([count({passed, Part}) || Part <- Parts]),
    Failed = lists:sum([count({failed, Part}) || Part <- Parts]),
    io:format("~b passed, ~b failed~n", [Passed, Failed]),
    min(Failed, 1).
