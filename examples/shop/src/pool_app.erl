-module(pool_app).
-behaviour(application).
-export([start/2, stop/1]).

start(_Type, _Argument) -> pool_sup:start_link().

stop(_State) -> ok.
