-module(billing_app).
-behaviour(application).
-export([start/2, start_phase/3, stop/1]).

start(_Type, _Argument) -> billing_sup:start_link().

start_phase(take_up, _Type, _Argument) -> ok.

stop(_State) -> ok.
