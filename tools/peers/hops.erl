%% The programs of tools/measure-hops as processes of Erlang.
%% usage: erlc -o /tmp tools/peers/hops.erl, then erl +S 1 -noshell -pa /tmp -run hops main PROGRAM NUMBER..
-module(hops).
-export([main/1]).

%% a token goes round a ring of so many servers
ring(Size, Hops) ->
    Parent = self(),
    Servers = [spawn(fun() -> receive {next, Next} -> serve_ring(Parent, Next) end end) || _ <- lists:seq(1, Size)],
    [First | Rest] = Servers,
    lists:foreach(fun({One, Next}) -> One ! {next, Next} end, lists:zip(Servers, Rest ++ [First])),
    First ! Hops.

serve_ring(Parent, Next) ->
    receive
        0 -> Parent ! done, serve_ring(Parent, Next);
        N -> Next ! (N - 1), serve_ring(Parent, Next)
    end.

rings(Sizes, Hops) ->
    [ring(Size, Hops) || Size <- Sizes],
    [receive done -> io:format(".") end || _ <- Sizes].

serve() -> receive {N, From} -> From ! {answer, N + 1}, serve() end.

client(_, Parent, 0, _) -> Parent ! done;
client(Server, Parent, Left, N) ->
    Server ! {N, self()},
    receive {answer, V} -> client(Server, Parent, Left - 1, V) end.

clients(Count, Each) ->
    Parent = self(),
    Server = spawn(fun serve/0),
    [spawn(fun() -> client(Server, Parent, Each, K) end) || K <- lists:seq(1, Count)],
    [receive done -> ok end || _ <- lists:seq(1, Count)],
    io:format("done").

fork(N, To, Tag) when N < 2 -> To ! {Tag, N};
fork(N, To, Tag) ->
    Own = self(),
    spawn(fun() -> fork(N - 1, Own, a) end),
    spawn(fun() -> fork(N - 2, Own, b) end),
    X = receive {a, V} -> V end,
    Y = receive {b, W} -> W end,
    To ! {Tag, X + Y}.

count(N, Most, Out) when N < Most -> Out ! N, count(N + 1, Most, Out);
count(_, _, Out) -> Out ! 0.

stage(Found, Parent) ->
    receive
        0 -> Parent ! {found, Found};
        P -> filter(P, spawn(fun() -> stage(Found + 1, Parent) end))
    end.

filter(P, Next) ->
    receive
        0 -> Next ! 0;
        N when N rem P == 0 -> filter(P, Next);
        N -> Next ! N, filter(P, Next)
    end.

main([Name | Words]) -> run(Name, [list_to_integer(W) || W <- Words]), halt(0).

run("ring", [Size, Hops]) -> rings([Size], Hops);
run("rings", [Hops]) -> rings([183, 124, 155], Hops);
run("clients", [Count, Each]) -> clients(Count, Each);
run("forks", [Number]) ->
    Own = self(),
    spawn(fun() -> fork(Number, Own, answer) end),
    receive {answer, V} -> io:format("~b", [V]) end;
run("sieve", [Most]) ->
    Own = self(),
    First = spawn(fun() -> stage(0, Own) end),
    spawn(fun() -> count(2, Most, First) end),
    receive {found, Found} -> io:format("~b", [Found]) end.
