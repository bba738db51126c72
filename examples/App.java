// A service that counts the requests of each key: `java App.java PORT`, behind `ringpop agent --app 127.0.0.1:PORT ..`.
import com.sun.net.httpserver.HttpExchange;
import com.sun.net.httpserver.HttpServer;
import java.io.IOException;
import java.net.InetSocketAddress;
import java.nio.charset.StandardCharsets;
import java.util.concurrent.ConcurrentHashMap;
import java.util.concurrent.Executors;

public class App {
    static final ConcurrentHashMap<String, Integer> counts = new ConcurrentHashMap<>();

    static void answer(HttpExchange exchange) throws IOException {
        String key = exchange.getRequestURI().getPath().substring("/keys/".length());
        String body = new String(exchange.getRequestBody().readAllBytes(), StandardCharsets.UTF_8);
        int count = counts.merge(key, 1, Integer::sum);
        byte[] answer = (key + ": " + count + " " + body).getBytes(StandardCharsets.UTF_8);
        exchange.sendResponseHeaders(200, answer.length);
        exchange.getResponseBody().write(answer);
        exchange.close();
    }

    public static void main(String[] words) throws IOException {
        HttpServer server = HttpServer.create(new InetSocketAddress("127.0.0.1", Integer.parseInt(words[0])), 128);
        server.createContext("/keys/", App::answer);
        server.setExecutor(Executors.newFixedThreadPool(32));
        server.start();
    }
}
