// Every word that the page shows, in English and German. {0}, {1} stand for what is put in.
export const WORDS = {
  brand: ['Deorasaeng', 'Deorasaeng'],
  skip: ['To the content', 'Zum Inhalt'],
  language: ['Deutsch', 'English'],
  languageLabel: ['Seite auf Deutsch zeigen', 'Show the page in English'],
  signOut: ['Sign out', 'Abmelden'],
  screens: ['Screens', 'Ansichten'],

  overview: ['Overview', 'Übersicht'],
  matrix: ['Lists', 'Listen'],
  why: ['Why', 'Warum'],
  queues: ['Queues', 'Warteschlangen'],
  addresses: ['Addresses', 'Adressen'],
  journal: ['Journal', 'Protokoll'],

  signIn: ['Sign in', 'Anmelden'],
  signInLead: ['The service page of this bridge box.', 'Die Serviceseite dieser Bridge-Box.'],
  userName: ['Name', 'Name'],
  password: ['Password', 'Passwort'],
  busNote: [
    'Port 1 on the bus itself has no password: a tool that is plugged in there may do all that the owner may. Keep the service plug where you keep the key.',
    'Port 1 hat am Bus selbst kein Passwort: ein Gerät, das dort eingesteckt wird, darf alles, was der Eigentümer darf. Bewahren Sie den Servicestecker auf wie den Schlüssel.'],
  errorPassword: ['Name or password is wrong.', 'Name oder Passwort ist falsch.'],
  errorWait: ['Too many tries. Wait {0} s.', 'Zu viele Versuche. Warten Sie {0} s.'],
  errorBusy: ['The page has too much to do just now. Try again.', 'Die Seite hat gerade zu viel zu tun. Versuchen Sie es noch einmal.'],
  errorGateway: ['The bridge does not answer. Whether it was done is not known: look at the list when it answers again.',
    'Die Bridge antwortet nicht. Ob es geschah, ist nicht bekannt: sehen Sie die Liste an, wenn sie wieder antwortet.'],
  errorViewer: ['You may look, not change.', 'Sie dürfen ansehen, nicht ändern.'],
  errorSession: ['You are not signed in any more.', 'Sie sind nicht mehr angemeldet.'],
  errorNetwork: ['The page\'s program does not answer.', 'Das Programm der Seite antwortet nicht.'],
  errorOther: ['Not done: {0}', 'Nicht getan: {0}'],

  role_viewer: ['viewer', 'Betrachter'],
  role_fitter: ['fitter of port {0}', 'Monteur an Port {0}'],
  role_owner: ['owner', 'Eigentümer'],

  live: ['live', 'live'],
  waiting: ['waiting', 'wartet'],
  waitingForBridge: ['Waiting for the bridge …', 'Warte auf die Bridge …'],
  deadGateway: ['The bridge does not answer. What you see is {0} s old.', 'Die Bridge antwortet nicht. Was Sie sehen, ist {0} s alt.'],
  deadGatewayNever: ['The bridge does not answer. Is its program running?', 'Die Bridge antwortet nicht. Läuft ihr Programm?'],
  deadPage: ['The connection to the page is lost. What you see is {0} s old.', 'Die Verbindung zur Seite ist weg. Was Sie sehen, ist {0} s alt.'],

  state_Unstarted: ['Unstarted', 'nicht begonnen'],
  state_Claiming: ['Claiming', 'meldet Adresse an'],
  state_Claimed: ['Claimed', 'Adresse gehalten'],
  state_Lost: ['Lost', 'Adresse verloren'],
  lostBanner: ['The bridge has lost its address to a lower NAME. Frames still cross; lists cannot be changed until it is started again.',
    'Die Bridge hat ihre Adresse an einen niedrigeren NAME verloren. Frames gehen weiter durch; Listen lassen sich erst nach einem Neustart ändern.'],
  unsavedBanner: ['The lists are not saved yet. Until they are, a power cut brings the old ones back.',
    'Die Listen sind noch nicht gespeichert. Bis dahin bringt ein Stromausfall die alten zurück.'],
  editedBanner: ['The lists file was edited beside the bridge: the lists are not saved. Restart the bridge to take the file\'s, or move it away to keep these.',
    'Die Listendatei wurde neben der Bridge geändert: die Listen werden nicht gespeichert. Starten Sie die Bridge neu, um die der Datei zu nehmen, oder räumen Sie sie weg, um diese zu behalten.'],
  nofileBanner: ['The bridge was started without a lists file: the lists are gone when it is switched off.',
    'Die Bridge wurde ohne Listendatei gestartet: die Listen sind weg, wenn sie ausgeschaltet wird.'],

  unit: ['The unit', 'Die Einheit'],
  address: ['Address', 'Adresse'],
  noAddress: ['none', 'keine'],
  name: ['NAME', 'NAME'],
  running: ['Running for', 'Läuft seit'],
  lostInAll: ['Frames lost, in all', 'Frames verloren, gesamt'],
  contended: ['Address contended', 'Adresse umstritten'],
  never: ['never', 'nie'],
  times: ['{0} ×, last {1}', '{0} ×, zuletzt {1}'],
  worstTurn: ['Longest turn of its loop', 'Längste Runde der Schleife'],
  port: ['Port {0}', 'Port {0}'],
  servicePort: ['service port', 'Serviceport'],
  in: ['in', 'ein'],
  out: ['out', 'aus'],
  perSecond: ['/s', '/s'],
  queue: ['Queue', 'Warteschlange'],
  queueWaiting: ['{0} of 32 waiting', '{0} von 32 warten'],
  queueMost: ['most so far {0}', 'höchstens bisher {0}'],
  queueByRank: ['waiting by priority 0 to 7: {0}', 'wartend nach Priorität 0 bis 7: {0}'],
  lost: ['lost', 'verloren'],
  missed: ['missed', 'versäumt'],
  stopped: ['stopped', 'gestoppt'],
  crossed: ['crossed', 'durchgelassen'],
  lastLoss: ['last {0}', 'zuletzt {0}'],
  nothingLost: ['nothing lost', 'nichts verloren'],
  interface_up: ['up', 'verbunden'],
  interface_down: ['down', 'aus'],
  interface_gone: ['gone', 'fehlt'],
  interface_busoff: ['bus-off', 'Bus-Off'],
  otherPorts: ['You see the port that is yours, and the pairs from it and to it.', 'Sie sehen den Port, der Ihrer ist, und die Paare von ihm und zu ihm.'],

  matrixLead: ['What may cross from each port (row) to each other (column). Choose a pair to see or change its list.',
    'Was von jedem Port (Zeile) zu jedem anderen (Spalte) durchdarf. Wählen Sie ein Paar, um seine Liste zu sehen oder zu ändern.'],
  fromTo: ['From ↓ to →', 'Von ↓ nach →'],
  from: ['From {0}', 'Von {0}'],
  to: ['to {0}', 'nach {0}'],
  mode_cleared: ['all', 'alles'],
  mode_block: ['block', 'sperren'],
  mode_pass: ['pass', 'durchlassen'],
  modeLong_cleared: ['Cleared: no list, everything crosses.', 'Leer: keine Liste, alles geht durch.'],
  modeLong_block: ['Block: what is listed stops, the rest crosses.', 'Sperren: was gelistet ist, stoppt, der Rest geht durch.'],
  modeLong_pass: ['Pass: what is listed crosses, the rest stops.', 'Durchlassen: was gelistet ist, geht durch, der Rest stoppt.'],
  entriesOf: ['{0} of 32', '{0} von 32'],
  namesOf: ['{0} by NAME', '{0} nach NAME'],
  noList: ['no list', 'keine Liste'],
  notYours: ['not yours', 'nicht Ihres'],

  listTitle: ['List from {0} to {1}', 'Liste von {0} nach {1}'],
  otherWay: ['The way back: {0} to {1}', 'Der Rückweg: {0} nach {1}'],
  allLists: ['All lists', 'Alle Listen'],
  standsNow: ['What stands', 'Was dasteht'],
  afterwards: ['What will stand', 'Was dann dasteht'],
  emptyBlock: ['The list is empty: everything crosses.', 'Die Liste ist leer: alles geht durch.'],
  emptyPass: ['The list is empty: nothing crosses but claims and requests.', 'Die Liste ist leer: nichts geht durch außer Anmeldungen und Anfragen.'],
  change: ['Change', 'Ändern'],
  doAdd: ['Add these', 'Diese dazunehmen'],
  doDelete: ['Take these out', 'Diese herausnehmen'],
  doBlock: ['Make it a block list of these', 'Sperrliste aus diesen machen'],
  doPass: ['Make it a pass list of these', 'Durchlassliste aus diesen machen'],
  doClear: ['Clear the pair: no list', 'Das Paar leeren: keine Liste'],
  pasteLabel: ['PGNs, typed or pasted', 'PGNs, getippt oder eingefügt'],
  pasteHint: ['Decimal (65265) or hex (0xFEF1, FEF1h, FEF1), with any separators.', 'Dezimal (65265) oder hex (0xFEF1, FEF1h, FEF1), mit beliebigen Trennzeichen.'],
  judgedNothing: ['Nothing typed yet.', 'Noch nichts getippt.'],
  judgedGood: ['{0} PGNs.', '{0} PGNs.'],
  judgedGoodOne: ['1 PGN.', '1 PGN.'],
  judgedNoNumber: ['The {0}, “{1}”, is no number.', 'Die {0}, „{1}“, ist keine Zahl.'],
  judgedNoPgn: ['The {0}, {1}, is no PGN.', 'Die {0}, {1}, ist keine PGN.'],
  judgedTwice: ['{0} stands there twice; it counts once.', '{0} steht zweimal da; sie zählt einmal.'],
  judgedFull: ['{0} of 32: too many.', '{0} von 32: zu viele.'],
  judgedCount: ['{0} of 32 afterwards.', 'Danach {0} von 32.'],
  judgedAbsent: ['{0} is not on the list.', '{0} steht nicht auf der Liste.'],
  judgedThere: ['{0} is listed already.', '{0} steht schon auf der Liste.'],
  judgedSame: ['That changes nothing.', 'Das ändert nichts.'],
  unitRefuses: ['The unit will refuse this.', 'Die Einheit wird das ablehnen.'],
  namesGo: ['The {0} entries by NAME go too.', 'Die {0} Einträge nach NAME gehen mit.'],
  cannotRead: ['This list cannot be shown.', 'Diese Liste kann nicht gezeigt werden.'],
  send: ['Send', 'Senden'],
  undo: ['Undo', 'Rückgängig'],
  done: ['Done.', 'Getan.'],
  undone: ['Undone.', 'Rückgängig gemacht.'],
  refused: ['Refused with {0}: {1}.', 'Abgelehnt mit {0}: {1}.'],
  refusedEntry: ['It is the {0}: {1}.', 'Es ist die {0}: {1}.'],
  refusedAbsent: ['{0} is not in the list to port {1}.', '{0} steht nicht in der Liste nach Port {1}.'],
  changedMeanwhile: ['Somebody else has changed this list. Nothing was done; look at what stands now, then send again.',
    'Jemand anders hat diese Liste geändert. Nichts ist geschehen; sehen Sie an, was jetzt dasteht, und senden Sie noch einmal.'],
  changedNotice: ['This list has just been changed by somebody else.', 'Diese Liste hat gerade jemand anders geändert.'],
  takeOut: ['Take {0} out', '{0} herausnehmen'],
  added: ['added', 'kommt dazu'],
  removed: ['taken out', 'fällt weg'],

  byName: ['Entries by who sent it', 'Einträge nach Absender'],
  byNameLead: ['They list a PGN of some senders only: those whose NAME agrees in the chosen fields. A pair has eight. They go when the pair is cleared, and not before.',
    'Sie listen eine PGN nur für manche Absender: die, deren NAME in den gewählten Feldern übereinstimmt. Ein Paar hat acht. Sie gehen, wenn das Paar geleert wird, und nicht vorher.'],
  byNameNone: ['None.', 'Keine.'],
  byNameNeedsList: ['The pair needs a list first.', 'Das Paar braucht zuerst eine Liste.'],
  pgn: ['PGN', 'PGN'],
  mask: ['mask', 'Maske'],
  sender: ['Sender', 'Absender'],
  pickSender: ['Choose a sender, or type a NAME', 'Absender wählen oder NAME tippen'],
  typedName: ['NAME, 16 hex digits', 'NAME, 16 Hexziffern'],
  agreeIn: ['Fields that have to agree', 'Felder, die übereinstimmen müssen'],
  agreesIn: ['agrees in: {0}', 'gleich in: {0}'],
  everySender: ['every sender with a NAME', 'jeder Absender mit NAME'],
  addByName: ['Add the entry', 'Eintrag dazunehmen'],
  wrongPgn: ['That is no PGN.', 'Das ist keine PGN.'],
  wrongName: ['A NAME has up to 16 hex digits.', 'Ein NAME hat bis zu 16 Hexziffern.'],

  self_configurable: ['self-configurable', 'selbstkonfigurierbar'],
  industry_group: ['industry group', 'Industriegruppe'],
  device_class_instance: ['device class instance', 'Geräteklasse, Instanz'],
  device_class: ['device class', 'Geräteklasse'],
  function: ['function', 'Funktion'],
  function_instance: ['function instance', 'Funktion, Instanz'],
  ecu_instance: ['ECU instance', 'ECU-Instanz'],
  manufacturer: ['maker', 'Hersteller'],
  identity: ['identity number', 'Identnummer'],
  unknown: ['unknown', 'unbekannt'],
  yes: ['yes', 'ja'],
  no: ['no', 'nein'],

  whyLead: ['Would such a frame cross? Nothing is sent: a copy of the unit is asked.', 'Ginge so ein Frame durch? Nichts wird gesendet: eine Kopie der Einheit wird gefragt.'],
  arrivesAt: ['Arrives at port', 'Kommt an Port an'],
  senderAddress: ['Sender\'s address', 'Adresse des Absenders'],
  ask: ['Ask', 'Fragen'],
  toPort: ['To port', 'Nach Port'],
  verdict: ['Verdict', 'Urteil'],
  reason: ['Reason', 'Grund'],
  entry: ['Entry', 'Eintrag'],
  crosses: ['crosses', 'geht durch'],
  stops: ['stops', 'stoppt'],
  entryNumber: ['entry {0} of {1}', 'Eintrag {0} von {1}'],
  entryByName: ['NAME entry {0} of {1}', 'NAME-Eintrag {0} von {1}'],
  openList: ['open the list', 'Liste öffnen'],
  tail: ['What was stopped and lost, as it happens', 'Was gestoppt wurde und verloren ging, wie es geschieht'],
  tailNone: ['Nothing yet.', 'Noch nichts.'],
  pause: ['Hold the display', 'Anzeige anhalten'],
  time: ['Time', 'Zeit'],
  frame: ['Frame', 'Frame'],
  whatHappened: ['What happened', 'Was geschah'],
  stoppedAt: ['stopped to {0} ({1})', 'gestoppt nach {0} ({1})'],
  lostAt: ['lost at {0}', 'verloren an {0}'],
  frameRefused: ['refused with {0}: {1}', 'abgelehnt mit {0}: {1}'],
  askThis: ['why?', 'warum?'],
  wrongAddress: ['An address is 0 to 253.', 'Eine Adresse ist 0 bis 253.'],

  queuesLead: ['Frames waiting at each port over the last ten minutes. The areas are by priority, asked once a second; the line is the most that waited at once. Red marks are losses.',
    'Frames, die an jedem Port warteten, in den letzten zehn Minuten. Die Flächen sind nach Priorität, einmal in der Sekunde gefragt; die Linie ist das meiste, das zugleich wartete. Rote Marken sind Verluste.'],
  mostAtOnce: ['most at once', 'meiste zugleich'],
  priority: ['priority {0}', 'Priorität {0}'],
  chartAlt: ['Port {0}: at most {1} of 32 waited in the last ten minutes, {2} frames were lost.', 'Port {0}: höchstens {1} von 32 warteten in den letzten zehn Minuten, {2} Frames gingen verloren.'],
  minutesAgo: ['{0} min ago', 'vor {0} min'],
  now: ['now', 'jetzt'],
  counters: ['Counters of lost frames', 'Zähler verlorener Frames'],
  countersLead: ['The unit\'s own: they count from power-on or from the last reset, and stay at 64,255.', 'Die der Einheit: sie zählen ab dem Einschalten oder dem letzten Rücksetzen und bleiben bei 64.255.'],
  pair: ['Pair', 'Paar'],
  count: ['Count', 'Anzahl'],
  lastReset: ['Last reset', 'Zuletzt zurückgesetzt'],
  reset: ['Reset', 'Zurücksetzen'],
  resetPair: ['Reset the counter from {0} to {1}', 'Zähler von {0} nach {1} zurücksetzen'],
  resetAll: ['Reset the unit\'s counter', 'Zähler der Einheit zurücksetzen'],
  wholeUnit: ['whole unit', 'ganze Einheit'],
  notReset: ['not reset in the journal', 'im Protokoll nicht zurückgesetzt'],
  byAt: ['{0}, {1}', '{0}, {1}'],

  addressesLead: ['Who has claimed which address, where it was heard, and what its NAME says. The codes are those of ISO 11783-1.',
    'Wer welche Adresse angemeldet hat, wo er gehört wurde und was sein NAME sagt. Die Codes sind die der ISO 11783-1.'],
  addressesNone: ['No address was heard here.', 'Hier wurde keine Adresse gehört.'],
  addressesUnknown: ['The unit is not Claimed and tells no addresses.', 'Die Einheit hält keine Adresse und nennt keine.'],
  since: ['Since', 'Seit'],
  conflicts: ['Conflicts', 'Konflikte'],
  rival: ['{0}, last {1} with {2}', '{0}, zuletzt {1} mit {2}'],
  thisUnit: ['this unit', 'diese Einheit'],
  fields: ['Fields', 'Felder'],

  journalLead: ['The last commands, done or refused, and who gave them.', 'Die letzten Befehle, getan oder abgelehnt, und wer sie gab.'],
  journalNone: ['No command yet.', 'Noch kein Befehl.'],
  who: ['Who', 'Wer'],
  what: ['What', 'Was'],
  result: ['Result', 'Ergebnis'],
  onlyRefused: ['Only what was refused', 'Nur was abgelehnt wurde'],
  byBus: ['tool at address {0}', 'Gerät mit Adresse {0}'],
  byProcess: ['program {0} of user {1}', 'Programm {0} des Benutzers {1}'],
  byPage: ['{0}, by this page', '{0}, über diese Seite'],
  commandDone: ['done', 'getan'],
  entryAt: ['entry {0}', 'Eintrag {0}'],
  absentAt: ['PGN {0}, to port {1}', 'PGN {0}, nach Port {1}'],
  bundle: ['Support bundle', 'Paket für den Support'],
  bundleLead: ['One file for whoever helps you: the whole status, the journal and the lists. It has no passwords.', 'Eine Datei für den, der Ihnen hilft: der ganze Zustand, das Protokoll und die Listen. Passwörter enthält sie nicht.'],
  bundleGet: ['Save the bundle', 'Paket speichern'],

  function_0: ['read a list', 'Liste lesen'],
  function_2: ['add to the list', 'zur Liste nehmen'],
  function_3: ['take out of the list', 'aus der Liste nehmen'],
  function_4: ['clear the pair', 'Paar leeren'],
  function_6: ['make a list', 'Liste anlegen'],
  function_7: ['add an entry by NAME', 'Eintrag nach NAME'],
  function_64: ['read addresses', 'Adressen lesen'],
  function_128: ['ask for a number of the unit', 'Zahl der Einheit fragen'],
  function_130: ['reset the unit\'s counter', 'Zähler der Einheit zurücksetzen'],
  function_131: ['ask for a number of a pair', 'Zahl eines Paars fragen'],
  function_133: ['reset a pair\'s counter', 'Zähler eines Paars zurücksetzen'],
  functionOther: ['function {0}', 'Funktion {0}'],

  reason_not_asked: ['not asked', 'nicht gefragt'],
  reason_permanent: ['claims and requests always cross', 'Anmeldungen und Anfragen gehen immer durch'],
  reason_cleared: ['the pair has no list', 'das Paar hat keine Liste'],
  reason_listed_in_pass: ['listed in pass', 'in der Durchlassliste'],
  reason_not_listed_in_block: ['not listed in block', 'nicht in der Sperrliste'],
  reason_stopped_as_listed: ['listed in block', 'in der Sperrliste'],
  reason_stopped_as_not_listed: ['not listed in pass', 'nicht in der Durchlassliste'],

  number_1: ['there is no such port', 'diesen Port gibt es nicht'],
  number_2: ['storage of a wrong length', 'Speicher falscher Länge'],
  number_3: ['the identifier is too large', 'der Identifier ist zu groß'],
  number_4: ['the frame is longer than 8 bytes', 'der Frame ist länger als 8 Byte'],
  number_5: ['the sender\'s address may not be used so', 'die Adresse des Absenders darf so nicht benutzt werden'],
  number_6: ['the unit has no address at the moment', 'die Einheit hat gerade keine Adresse'],
  number_7: ['too many entries for one message', 'zu viele Einträge für eine Nachricht'],
  number_8: ['the requester has no address', 'der Fragende hat keine Adresse'],
  number_9: ['the unit does not know this function', 'die Einheit kennt diese Funktion nicht'],
  number_10: ['there is no such pair', 'dieses Paar gibt es nicht'],
  number_11: ['this pair or port is not yours', 'dieses Paar oder dieser Port ist nicht Ihrer'],
  number_12: ['the message is garbled', 'die Nachricht ist verstümmelt'],
  number_13: ['the mode is neither block nor pass', 'der Modus ist weder Sperren noch Durchlassen'],
  number_14: ['the pair has a list already', 'das Paar hat schon eine Liste'],
  number_15: ['the pair has no list', 'das Paar hat keine Liste'],
  number_16: ['more than 32 PGNs, or than 8 entries by NAME', 'mehr als 32 PGNs oder als 8 Einträge nach NAME'],
  number_17: ['a PGN is not on the list', 'eine PGN steht nicht auf der Liste'],
  number_18: ['not in this state', 'nicht in diesem Zustand'],
  number_22: ['an entry is no PGN', 'ein Eintrag ist keine PGN'],
  number_23: ['there is no such number to ask for or to reset', 'diese Zahl lässt sich nicht fragen oder zurücksetzen'],
  number_27: ['a unit has 2 to 8 ports', 'eine Einheit hat 2 bis 8 Ports'],
  number_28: ['a number outside the plan', 'eine Zahl außerhalb des Plans'],
  number_29: ['two paths in the plan', 'zwei Wege im Plan'],
  number_other: ['a number that this page does not know', 'eine Nummer, die diese Seite nicht kennt'],
};

const LANGUAGES = ['en', 'de'];
const ORDINALS = [['th', 'st', 'nd', 'rd'], ['.']];

function stored() {
  try { return localStorage.getItem('language'); } catch { return null; }
}
let place = LANGUAGES.indexOf(stored() ?? (navigator.language.startsWith('de') ? 'de' : 'en'));
if (place < 0) place = 0;

export const language = () => LANGUAGES[place];

export function toggleLanguage() {
  place = 1 - place;
  try { localStorage.setItem('language', language()); } catch { /* it is forgotten, no more */ }
}

export function t(key, ...values) {
  const words = WORDS[key];
  if (!words) throw new Error(`no words for ${key}`);
  return words[place].replace(/\{(\d)\}/g, (whole, number) => String(values[number]));
}

export const has = (key) => key in WORDS;

// 1st, 2nd, 11th; in German 1., 2.
export function ordinal(number) {
  if (place === 1) return `${number}.`;
  const tens = number % 100;
  const end = tens > 10 && tens < 14 ? 'th' : ORDINALS[0][number % 10] ?? 'th';
  return `${number}${end}`;
}

export const refusal = (number) => t(has(`number_${number}`) ? `number_${number}` : 'number_other');
export function reasonWord(reason) {
  const key = `reason_${reason.replaceAll(' ', '_')}`;
  return has(key) ? t(key) : reason;
}
export const commandWord = (number) => (has(`function_${number}`) ? t(`function_${number}`) : t('functionOther', number));

const locale = () => (place === 1 ? 'de-DE' : 'en-GB');
export const number = (value) => value.toLocaleString(locale());

export function clock(time) {
  const date = new Date(time);
  const today = date.toDateString() === new Date().toDateString();
  return date.toLocaleString(locale(), today ? { timeStyle: 'medium' } : { dateStyle: 'short', timeStyle: 'medium' });
}

export function duration(seconds) {
  const s = Math.floor(seconds);
  const parts = [Math.floor(s / 86400), Math.floor(s / 3600) % 24, Math.floor(s / 60) % 60, s % 60];
  const names = place === 1 ? ['T', 'h', 'min', 's'] : ['d', 'h', 'min', 's'];
  const first = parts.findIndex((part) => part > 0);
  if (first < 0) return '0 s';
  return parts.slice(first, first + 2).map((part, i) => `${part} ${names[first + i]}`).join(' ');
}
