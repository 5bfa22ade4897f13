import com.mongodb.MongoClient;
import com.mongodb.MongoClientURI;
import com.mongodb.MongoException;
import com.mongodb.client.MongoCollection;
import java.util.concurrent.atomic.AtomicLong;
import org.bson.Document;

/**
 * A load by the Java driver: threads that insert documents, each with its own text, for some seconds.
 * On a busy machine it goes on until each has 25 done, but for no longer than six times as long.
 *
 * <p>usage: java -cp /usr/share/java/mongo-java-driver.jar:FOLDER Load SECONDS THREADS, with MDB_URI
 */
public final class Load {
  private static final AtomicLong DONE = new AtomicLong();
  private static final AtomicLong FAILED = new AtomicLong();
  private static final int LEAST = 25;

  private static void work(MongoCollection<Document> items, int thread, long milliseconds) {
    long begin = System.currentTimeMillis();
    int mine = 0;
    try {
      for (int number = 1; System.currentTimeMillis() - begin < (mine >= LEAST ? 1 : 6) * milliseconds; number++) {
        try {
          items.insertOne(new Document("text", thread + " " + number));
          DONE.incrementAndGet();
          mine++;
        } catch (MongoException why) {
          FAILED.incrementAndGet();
          Thread.sleep(10);
        }
        Thread.sleep(10);
      }
    } catch (InterruptedException why) {
      Thread.currentThread().interrupt();
    }
  }

  public static void main(String[] words) throws InterruptedException {
    java.util.logging.Logger.getLogger("org.mongodb.driver").setLevel(java.util.logging.Level.OFF);
    int threads = Integer.parseInt(words[1]);
    MongoClient client = new MongoClient(new MongoClientURI(System.getenv("MDB_URI")));
    MongoCollection<Document> items = client.getDatabase("test").getCollection("items");
    long milliseconds = (long) (1000 * Double.parseDouble(words[0]));
    Thread[] workers = new Thread[threads];
    for (int thread = 0; thread < threads; thread++) {
      int number = thread;
      workers[thread] = new Thread(() -> work(items, number, milliseconds));
      workers[thread].start();
    }
    for (Thread worker : workers) {
      worker.join();
    }
    client.close();
    System.err.println("Java driver: done " + DONE + " failed " + FAILED);
  }
}
