%% All tests against a node. Arguments: the driver program, the node's name, its cookie, a folder for logs.
-module(erlang_tests).
-export([main/1]).

-define(WHOLE, "the run to its end").

main([Program, Node, Cookie, Folder]) ->
    tally:new(),
    ok = io:setopts([{encoding, unicode}]),
    io:format("Erlang/OTP ~s; the listed differences are those of OTP 25~n", [erlang:system_info(otp_release)]),
    to_its_end(fun() -> term_tests:run(Program) end),
    to_its_end(fun() -> map_tests:run(Program) end),
    to_its_end(fun() -> live_tests:run(Program, Node, Cookie, Folder) end),
    term_tests:say_differences(),
    tally:say(?WHOLE, "terms, maps, live connection"),
    halt(tally:end_run(term_tests:parts() ++ map_tests:parts() ++ live_tests:parts() ++ [?WHOLE])).

%% A part that ends early is a failure, and the others still run.
to_its_end(Fun) ->
    try Fun() of
        _ -> tally:passed(?WHOLE)
    catch Class:Reason:Stack -> tally:failed(?WHOLE, {Class, Reason, Stack})
    end.
