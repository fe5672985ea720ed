//! The machine while it runs.
use std::collections::VecDeque;
use std::io::Write;
use std::slice;

use crate::alarms::{Alarms, Source};
use crate::coils::{Coil, Command};
use crate::devices::{Act, Answer, Device, World};
use crate::finder::Finder;
use crate::game::{self, Game, Phase};
use crate::output::{Output, Text};
use crate::plan::{Action, Change, Effect, Event, Handler, Owner, Plan, Step, MACHINE, STARTED, STOPPING};

/// How long a switch that is not quick must keep its raw level before that is accepted, in milliseconds.
const DEBOUNCE: u64 = 5;

struct Level {
    raw: bool,
    active: bool,
}

#[derive(Clone, Copy, PartialEq)]
enum Life {
    Idle,
    Starting,
    Active,
    Stopping,
}

/// How many balls there are where.
#[derive(Default)]
struct Ledger {
    known: i64,
    in_devices: i64,
    /// By target: all devices, and then the playfield.
    on_their_way: Vec<i64>,
    playfield: i64,
}

/// What lines say after their owner, made before the play begins.
struct Texts {
    events: Vec<Text>,
    /// By switch: that it becomes inactive, and active.
    switches: Vec<[Text; 2]>,
    /// The names of variables.
    variables: Vec<Text>,
}

impl Texts {
    fn new(plan: &Plan) -> Texts {
        let event = |name: &String| Text::new(&format!(" event {name}\n"));
        let changes = |name: &String| ["inactive", "active"].map(|level| format!(" switch {name} {level}\n"));
        Texts {
            events: plan.event_names.names.iter().map(event).collect(),
            switches: plan.switch_names.names.iter().map(|name| changes(name).map(|text| Text::new(&text))).collect(),
            variables: plan.variables.names.iter().map(|name| Text::new(name)).collect(),
        }
    }
}

pub struct Run<'p, W: Write> {
    plan: &'p Plan,
    pub finder: Finder<'p>,
    pub output: Output<W>,
    pub now: u64,
    pub alarms: Alarms,
    levels: Vec<Level>,
    coils: Vec<Coil>,
    devices: Vec<Device>,
    /// By owner: the machine is always active.
    lives: Vec<Life>,
    /// By owner: whether it is stopped as soon as it has started.
    kept_stops: Vec<bool>,
    game: Game,
    ledger: Ledger,
    texts: Texts,
    /// By event: whether nothing handles it, and nothing follows it.
    is_idle: Vec<bool>,
    /// Lists of events, each with who posted it.
    waiting: VecDeque<(Owner, &'p [Event])>,
}

impl<'p, W: Write> Run<'p, W> {
    pub fn new(plan: &'p Plan, coils: Vec<Coil>, devices: Vec<Device>, to: W) -> Run<'p, W> {
        let mut lives = vec![Life::Idle; plan.owners.len()];
        lives[MACHINE as usize] = Life::Active;
        let level = |closed_at_rest| Level { raw: closed_at_rest, active: false };
        let is_idle = |(groups, step): (&Vec<_>, &Step)| groups.is_empty() && matches!(step, Step::None);
        Run {
            plan,
            finder: Finder::new(&plan.switch_names.names),
            output: Output::new(to, &plan.owners),
            now: 0,
            alarms: Alarms::new(plan.switches.len() + plan.rows.len()),
            levels: plan.switches.iter().map(|switch| level(switch.closed_at_rest)).collect(),
            coils,
            devices,
            lives,
            kept_stops: vec![false; plan.owners.len()],
            game: Game::new(plan.variables.names.len()),
            ledger: Ledger { on_their_way: vec![0; plan.rows.len() + 1], ..Ledger::default() },
            texts: Texts::new(plan),
            is_idle: plan.groups.iter().zip(&plan.steps).map(is_idle).collect(),
            waiting: VecDeque::new(),
        }
    }

    pub fn set_moment(&mut self, moment: u64) {
        if moment != self.now {
            self.now = moment;
            self.output.set_moment(moment);
        }
    }

    #[inline(always)]
    fn post(&mut self, owner: Owner, events: &'p [Event]) {
        if !events.is_empty() {
            self.waiting.push_back((owner, events));
        }
    }

    /// Ends the machine: coils that are on go off.
    pub fn shut_down(&mut self) {
        for (coil, name) in self.coils.iter().zip(&self.plan.coil_names.names) {
            if coil.is_on(self.now) {
                self.output.begin(MACHINE);
                self.output.push(b" off ");
                self.output.push(name.as_bytes());
                self.output.end();
            }
        }
    }
}

/// Switches and coils.
impl<'p, W: Write> Run<'p, W> {
    pub fn change(&mut self, number: u16, raw: bool) {
        let (switch, level) = (&self.plan.switches[number as usize], &mut self.levels[number as usize]);
        if raw == level.raw {
            return;
        }
        level.raw = raw;
        if (raw != switch.closed_at_rest) == level.active {
            self.alarms.set(number, None);
        } else if switch.is_quick {
            self.accept(number);
        } else {
            self.alarms.set(number, Some(self.now + DEBOUNCE));
        }
    }

    fn accept(&mut self, number: u16) {
        let (plan, level) = (self.plan, &mut self.levels[number as usize]);
        let switch = &plan.switches[number as usize];
        level.active = !level.active;
        let active = level.active;
        self.output.line(MACHINE, &self.texts.switches[number as usize][usize::from(active)]);
        for &(row, place) in &switch.listeners {
            let answer = self.devices[row as usize].switched(place, active, self.now);
            self.answered(row, answer);
        }
        if active && switch.is_on_playfield && self.ledger.on_their_way[plan.rows.len()] > 0 {
            self.confirm(plan.rows.len());
        }
        self.post(MACHINE, &switch.posts[usize::from(active)]);
    }

    fn drive(&mut self, owner: Owner, coil: u16, command: Command) {
        let is_sent = self.coils[coil as usize].take(command, owner, self.now);
        let output = &mut self.output;
        output.begin(owner);
        output.push(if is_sent { b" coil " } else { b" skip " });
        output.push(self.plan.coil_names.names[coil as usize].as_bytes());
        match command {
            Command::Pulse { ms, power } => {
                output.push(b" pulse");
                if is_sent {
                    output.push_number(ms as i64);
                    output.push_number(power.into());
                }
            }
            Command::Enable { power } => {
                output.push(b" enable");
                if is_sent {
                    output.push_number(power.into());
                }
            }
            Command::Disable => output.push(b" disable"),
        }
        output.end();
    }
}

/// Devices and balls.
impl<'p, W: Write> Run<'p, W> {
    /// A source was due, and this is the moment.
    pub fn fire(&mut self, source: Source) {
        let switches = self.plan.switches.len() as u16;
        if source < switches {
            return self.accept(source);
        }
        let row = source - switches;
        let answer = self.devices[row as usize].fire(self.now);
        self.answered(row, answer);
    }

    /// A device was called: notes when it is due, and runs the lists of its answer.
    fn answered(&mut self, row: u16, answer: Answer) {
        let source = self.plan.switches.len() as u16 + row;
        self.alarms.set(source, self.devices[row as usize].due());
        for &list in answer.lists() {
            self.run_list(row, list);
        }
    }

    fn run_list(&mut self, row: u16, list: u16) {
        let plan = self.plan;
        let of = &plan.rows[row as usize];
        for action in &of.lists[list as usize] {
            match action {
                Action::Post(event) => self.post(of.owner, slice::from_ref(event)),
                Action::Drive(coil, command) => self.drive(of.owner, *coil, *command),
                Action::Enter(event) => self.enter(row, event),
                Action::Leave | Action::Lose | Action::Arrive => self.book(of.target, *action),
            }
        }
    }

    fn act(&mut self, row: u16, act: Act) {
        let world = World { games: self.game.count, player: self.game.current };
        let answer = self.devices[row as usize].act(act, self.now, world);
        self.answered(row, answer);
    }

    fn book(&mut self, target: usize, action: Action) {
        let Ledger { in_devices, on_their_way, playfield, .. } = &mut self.ledger;
        let (from, to) = match action {
            Action::Leave => (in_devices, &mut on_their_way[target]),
            Action::Arrive => (&mut on_their_way[target], playfield),
            _ => (in_devices, playfield),
        };
        (*from, *to) = (*from - 1, *to + 1);
        self.write_balls();
    }

    fn write_balls(&mut self) {
        let Ledger { known, in_devices, playfield, .. } = self.ledger;
        self.output.begin(MACHINE);
        self.output.push(b" balls");
        for number in [known, in_devices, known - in_devices - playfield, playfield] {
            self.output.push_number(number);
        }
        self.output.end();
    }

    /// A ball enters a device, which posts an event.
    fn enter(&mut self, row: u16, event: &'p Event) {
        let Ledger { known, in_devices, on_their_way, playfield } = &mut self.ledger;
        let awaited = &mut on_their_way[row as usize];
        let is_awaited = *awaited > 0;
        match (is_awaited, *playfield) {
            (true, _) => *awaited -= 1,
            (false, 0) => *known += 1,
            (false, _) => *playfield -= 1,
        }
        *in_devices += 1;
        self.write_balls();
        self.post(MACHINE, slice::from_ref(event));
        if is_awaited {
            self.confirm(row as usize);
        } else if self.game.phase == Phase::Ball && self.plan.rows[row as usize].drains {
            self.post(MACHINE, slice::from_ref(&self.plan.game[game::DRAIN]));
        }
    }

    /// The first ball on its way to a target has arrived there.
    fn confirm(&mut self, target: usize) {
        let plan = self.plan;
        let mut of_target = plan.balls.iter().filter(|&&row| plan.rows[row as usize].target == target);
        let is_away = |row: u16| matches!(&self.devices[row as usize], Device::Ball(device) if device.is_away());
        if let Some(&row) = of_target.find(|&&row| is_away(row)) {
            self.act(row, Act::Confirm);
        }
    }

    fn balls_at_home(&self) -> usize {
        let balls = self.devices.iter().map(|device| match device {
            Device::Ball(device) if device.is_home => device.balls(),
            _ => 0,
        });
        balls.sum()
    }
}

/// Events.
impl<'p, W: Write> Run<'p, W> {
    /// Takes events until none waits.
    pub fn settle(&mut self) {
        while let Some((owner, events)) = self.waiting.pop_front() {
            for &event in events {
                self.output.line(owner, &self.texts.events[event as usize]);
                if !self.is_idle[event as usize] {
                    self.work(event);
                }
            }
        }
    }

    /// Runs the handlers of an event, and what the machine itself does then.
    #[inline(always)]
    fn work(&mut self, event: Event) {
        let step = self.plan.steps[event as usize];
        if let Step::Mode(mode, STARTED) = step {
            self.begin_mode(mode);
        }
        self.handle(event);
        match step {
            Step::Mode(mode, place) => self.mode_work(mode, place),
            Step::Game(place) => self.game_work(place),
            Step::None => (),
        }
    }

    /// Runs the handlers of an event whose owners take part.
    fn handle(&mut self, event: Event) {
        let plan = self.plan;
        for group in &plan.groups[event as usize] {
            if matches!(self.lives[group.owner as usize], Life::Active | Life::Stopping) {
                group.handlers.iter().for_each(|handler| self.run_handler(group.owner, handler));
            }
        }
    }

    #[inline(always)]
    fn run_handler(&mut self, owner: Owner, handler: &'p Handler) {
        if handler.condition.as_ref().is_some_and(|condition| !self.game.meets(condition)) {
            return;
        }
        match &handler.effect {
            Effect::Post(events) => self.post(owner, events),
            Effect::Change(changes) => self.change_variables(owner, changes),
            Effect::Drive(drives) => drives.iter().for_each(|&(coil, command)| self.drive(owner, coil, command)),
            Effect::Start(mode) => self.start_mode(*mode),
            Effect::Stop(mode) => self.stop_mode(*mode),
            Effect::Act(row, act) => self.act(*row, *act),
        }
    }

    fn change_variables(&mut self, owner: Owner, changes: &'p [Change]) {
        let current = self.game.current as i64;
        let Some(values) = self.game.values() else { return };
        for change in changes {
            let Some(value) = change.apply(values) else { continue };
            self.output.begin(owner);
            self.output.push(b" player");
            self.output.push_number(current);
            self.output.push(b" ");
            self.output.put(&self.texts.variables[change.variable as usize]);
            self.output.push_number(value);
            self.output.end();
            self.waiting.push_back((owner, slice::from_ref(&change.event)));
        }
    }
}

/// Modes and games.
impl<'p, W: Write> Run<'p, W> {
    fn start_mode(&mut self, mode: Owner) {
        let may_start = self.game.phase != Phase::None || !self.plan.mode(mode).needs_game;
        let life = &mut self.lives[mode as usize];
        if may_start && *life == Life::Idle {
            *life = Life::Starting;
            self.post(MACHINE, &self.plan.mode(mode).events[..1]);
        }
    }

    fn stop_mode(&mut self, mode: Owner) {
        let life = &mut self.lives[mode as usize];
        match life {
            Life::Active => {
                *life = Life::Stopping;
                self.post(MACHINE, &self.plan.mode(mode).events[STOPPING..=STOPPING]);
            }
            Life::Starting => self.kept_stops[mode as usize] = true,
            _ => (),
        }
    }

    fn begin_mode(&mut self, mode: Owner) {
        self.lives[mode as usize] = Life::Active;
        for row in self.plan.mode(mode).rows.clone() {
            let answer = self.devices[row].start(self.now);
            self.answered(row as u16, answer);
        }
    }

    /// What follows the handlers of an event of a mode.
    fn mode_work(&mut self, mode: Owner, place: usize) {
        match place {
            STARTED => {
                if std::mem::take(&mut self.kept_stops[mode as usize]) {
                    self.stop_mode(mode);
                }
                return;
            }
            STOPPING => self.end_mode(mode),
            _ => (),
        }
        if let Some(next) = self.plan.mode(mode).events.get(place + 1) {
            self.post(MACHINE, slice::from_ref(next));
        }
    }

    /// Its devices stop, and the coils that it holds go off.
    fn end_mode(&mut self, mode: Owner) {
        for row in self.plan.mode(mode).rows.clone() {
            self.devices[row].stop();
            self.answered(row as u16, Answer::NONE);
        }
        for coil in 0..self.coils.len() {
            if self.coils[coil].is_held_by(mode) {
                self.drive(mode, coil as u16, Command::Disable);
            }
        }
        self.lives[mode as usize] = Life::Idle;
    }

    /// What follows the handlers of an event of the game.
    fn game_work(&mut self, place: usize) {
        match (place, self.plan.trough) {
            (game::BALL_STARTING, Some(trough)) => self.act(trough, Act::Request),
            (game::GAME_ENDED, _) => self.write_scores(),
            _ => (),
        }
        let at_home = if place == game::BUTTON { self.balls_at_home() } else { 0 };
        let posts = self.game.follow(place, &self.plan.rules, at_home);
        self.post(MACHINE, &self.plan.game[posts]);
    }

    fn write_scores(&mut self) {
        for (number, values) in (1..).zip(&self.game.players) {
            self.output.begin(MACHINE);
            self.output.push(b" final");
            self.output.push_number(number);
            self.output.push_number(values[game::SCORE]);
            self.output.end();
        }
    }
}
