%% Joins an Erlang node over TCP as a hidden node of our own: port look-up at epmd, handshake of version 6, packets.
%% Only what the distribution protocol itself says; no rule of the library stands here.
-module(dist_link).
-export([connect/4, creation/1, send/2, next/2, close/1, register_send/3]).
-include_lib("kernel/include/dist.hrl").

-record(link, {socket, name, creation}).

%% What we agree to: the atom cache in headers and fragments; V4_NC, which lets identifiers use more bits, only where the caller wants it.
flags(v4_nc) -> flags(no_v4_nc) bor ?DFLAG_V4_NC;
flags(no_v4_nc) ->
    ?MANDATORY_DFLAGS_25 bor ?DFLAG_HANDSHAKE_23 bor ?DFLAG_DIST_HDR_ATOM_CACHE bor ?DFLAG_FRAGMENTS
        bor ?DFLAG_SMALL_ATOM_TAGS bor ?DFLAG_UNLINK_ID.

%% Joins Node (as text, name@host) under the name OurName, with or without V4_NC; epmd's port is the one of the environment.
connect(OurName, Node, Cookie, V4Nc) ->
    [Name, Host] = string:split(Node, "@"),
    {ok, Socket} = gen_tcp:connect(Host, node_port(Name, Host), [binary, {active, false}, {packet, 2}, {nodelay, true}]),
    ok = gen_tcp:send(Socket, <<$N, (flags(V4Nc)):64, 1:32, (length(OurName)):16, (list_to_binary(OurName))/binary>>),
    {ok, <<"sok">>} = gen_tcp:recv(Socket, 0, 10000),
    {ok, <<$N, Theirs:64, Challenge:32, Creation:32, Size:16, _Name:Size/binary, _/binary>>} = gen_tcp:recv(Socket, 0, 10000),
    Offered = ?DFLAG_FRAGMENTS bor ?DFLAG_DIST_HDR_ATOM_CACHE bor ?DFLAG_V4_NC,
    Offered = Theirs band Offered,
    Ours = rand:uniform(1 bsl 32) - 1,
    ok = gen_tcp:send(Socket, <<$r, Ours:32, (digest(Cookie, Challenge))/binary>>),
    {ok, <<$a, Answer/binary>>} = gen_tcp:recv(Socket, 0, 10000),
    Answer = digest(Cookie, Ours),
    ok = inet:setopts(Socket, [{packet, 4}]),
    #link{socket = Socket, name = OurName, creation = Creation}.

%% The node's own Creation, by its challenge.
creation(#link{creation = Creation}) -> Creation.

digest(Cookie, Challenge) -> erlang:md5([Cookie, integer_to_list(Challenge)]).

node_port(Name, Host) ->
    node_port(Name, Host, 100).

%% Asks again, ten times a second, until the node has its name.
node_port(Name, Host, Tries) when Tries > 0 ->
    {ok, Epmd} = gen_tcp:connect(Host, list_to_integer(os:getenv("ERL_EPMD_PORT", "4369")), [binary, {active, false}]),
    ok = gen_tcp:send(Epmd, <<(1 + length(Name)):16, $z, (list_to_binary(Name))/binary>>),
    Answer = gen_tcp:recv(Epmd, 0, 10000),
    gen_tcp:close(Epmd),
    case Answer of
        {ok, <<$w, 0, Port:16, _/binary>>} -> Port;
        _ -> timer:sleep(100), node_port(Name, Host, Tries - 1)
    end.

send(#link{socket = Socket}, Packet) -> ok = gen_tcp:send(Socket, Packet).

%% The next packet that is no tick, within so many milliseconds; ticks are answered.
next(Link, Timeout) -> before(Link, erlang:monotonic_time(millisecond) + Timeout).

before(Link = #link{socket = Socket}, Deadline) ->
    case gen_tcp:recv(Socket, 0, max(0, Deadline - erlang:monotonic_time(millisecond))) of
        {ok, <<>>} -> send(Link, <<>>), before(Link, Deadline);
        Other -> Other
    end.

close(#link{socket = Socket}) -> gen_tcp:close(Socket).

%% A message to a registered process of the node, in a plain packet without references: a control message
%% {6, From, '', Name}, then the message, whose standalone bytes are given.
register_send(Link = #link{name = OurName}, Name, <<131, Message/binary>>) ->
    Control = [<<104, 4, 97, 6>>, pid(OurName), atom(""), atom(Name)],
    send(Link, [<<131, 68, 0>>, Control, Message]).

pid(Node) -> [88, atom(Node), <<1:32, 0:32, 1:32>>].
atom(Text) -> <<119, (length(Text)), (list_to_binary(Text))/binary>>.
